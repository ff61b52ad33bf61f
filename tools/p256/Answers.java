// Signs and verifies by the provider SunEC: a line `sign PKCS8 MESSAGE` is answered with a signature, and
// `verify SPKI MESSAGE SIGNATURE` with yes or no. Bytes are hex digits; `-` is no bytes.
import java.io.BufferedReader;
import java.io.InputStreamReader;
import java.security.GeneralSecurityException;
import java.security.KeyFactory;
import java.security.Signature;
import java.security.spec.PKCS8EncodedKeySpec;
import java.security.spec.X509EncodedKeySpec;
import java.util.HexFormat;

class Answers {
    private static byte[] bytes(String word) {
        return word.equals("-") ? new byte[0] : HexFormat.of().parseHex(word);
    }

    private static String sign(String[] words) throws GeneralSecurityException {
        Signature scheme = Signature.getInstance("SHA256withECDSA", "SunEC");
        KeyFactory keys = KeyFactory.getInstance("EC", "SunEC");
        scheme.initSign(keys.generatePrivate(new PKCS8EncodedKeySpec(bytes(words[1]))));
        scheme.update(bytes(words[2]));
        return HexFormat.of().formatHex(scheme.sign());
    }

    private static boolean verifies(String[] words) {
        try {
            Signature scheme = Signature.getInstance("SHA256withECDSA", "SunEC");
            KeyFactory keys = KeyFactory.getInstance("EC", "SunEC");
            scheme.initVerify(keys.generatePublic(new X509EncodedKeySpec(bytes(words[1]))));
            scheme.update(bytes(words[2]));
            return scheme.verify(bytes(words[3]));
        } catch (GeneralSecurityException refused) {
            return false;
        }
    }

    public static void main(String[] none) throws Exception {
        BufferedReader lines = new BufferedReader(new InputStreamReader(System.in));
        for (String line = lines.readLine(); line != null; line = lines.readLine()) {
            String[] words = line.split(" ");
            System.out.println(words[0].equals("sign") ? sign(words) : verifies(words) ? "yes" : "no");
        }
    }
}
