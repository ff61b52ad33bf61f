package p256

import (
	"bytes"
	"encoding/base64"
	"errors"
	"fmt"
	"math/rand"
	"os"
	"os/exec"
	"path/filepath"
	"strconv"
	"strings"
	"testing"
	"time"

	"weoldrin.example/weoldrin"
	"weoldrin.example/weoldrin/internal/rows"
)

// eachRow is what a row of the suite asks, and whether the signature belongs.
func eachRow(t *testing.T, do func(number int, question *weoldrin.Question, belongs bool)) {
	t.Helper()
	right, wrong := 0, 0
	for _, path := range rows.Files(t, 3, "values/p256.rows") {
		blocks, err := rows.Blocks(path)
		if err != nil {
			t.Fatal(err)
		}
		for _, block := range blocks {
			row, err := rows.RowOf(block.Text)
			words := strings.Split(row.Question, " ")
			isRead := len(words) == 4 && words[0] == "p256-verify" && (row.Wanted == "= yes" || row.Wanted == "= no")
			if err != nil || !isRead {
				t.Fatalf("line %d: a strange row", block.Number)
			}
			parts := make([][]byte, 3)
			for place, it := range words[1:] {
				if parts[place], err = rows.BytesOf(it); err != nil {
					t.Fatal(err)
				}
			}
			question := &weoldrin.Question{Key: TextOf(parts[0]), Message: parts[1], Signature: TextOf(parts[2])}
			do(block.Number, question, row.Wanted == "= yes")
			if row.Wanted == "= yes" {
				right++
			} else {
				wrong++
			}
		}
	}
	if right <= 600 || wrong <= 1600 {
		t.Errorf("%d rows are right, %d wrong", right, wrong)
	}
}

// Each row of conformance/values/p256.rows, by the library and by crypto/ecdsa. No text of a row is none that can be
// read.
func TestRows(t *testing.T) {
	eachRow(t, func(number int, question *weoldrin.Question, wanted bool) {
		belongs, err := weoldrin.Verify(question.Key, question.Message, question.Signature)
		if err != nil || belongs != wanted || Verify(question) != wanted || VerifyByCrypto(question) != wanted {
			t.Errorf("line %d: %v %v, %v, %v", number, belongs, err, Verify(question), VerifyByCrypto(question))
		}
	})
}

// pieces are what strangers write in the place of a digit, before it or behind it.
var pieces = append(strings.Split("=AZaz09+/-_:.,;!#%\\\"' \t\n\r\v\f\x00\x1f\x7f\u0085\u00a0é\u0661\u2028\ufeffＡ🔑", ""),
	"==", "====", "\r\n", "ecdsa-p256:", "toy:", "\xff", "\xed\xa0\x80")

// changed is a text with something put in, taken away or doubled.
func changed(text string, some *rand.Rand) string {
	at, to := some.Intn(len(text)+1), some.Intn(len(text)+1)
	if to < at {
		at, to = to, at
	}
	piece := pieces[some.Intn(len(pieces))]
	switch some.Intn(6) {
	case 0:
		return text[:at] + piece + text[at:]
	case 1:
		return text[:at] + piece + text[to:]
	case 2:
		return text[:at] + strings.ToUpper(text[at:to]) + text[to:]
	case 3:
		return text[:to] + text[at:]
	case 4:
		return text + piece
	default:
		return text[:at] + text[to:]
	}
}

// Both verifiers answer alike, whatever stands in the texts, and take no text but the one that is right.
func TestChangedTexts(t *testing.T) {
	seed := time.Now().UnixNano()
	if it, err := strconv.ParseInt(os.Getenv("WARG_P256_SEED"), 10, 64); err == nil {
		seed = it
	}
	some := rand.New(rand.NewSource(seed))
	key, message := must(Generate()), []byte("what is signed")
	right := weoldrin.Question{Key: key.PublicKey(), Message: message, Signature: must(key.Sign(message))}
	if !Verify(&right) || !VerifyByCrypto(&right) {
		t.Fatal("the signature does not belong")
	}
	for round := 0; round < 4000; round++ {
		it := right
		for change := some.Intn(3); change >= 0; change-- {
			if some.Intn(2) == 0 {
				it.Key = changed(it.Key, some)
			} else {
				it.Signature = changed(it.Signature, some)
			}
		}
		isRight := it.Key == right.Key && it.Signature == right.Signature
		if Verify(&it) != isRight || VerifyByCrypto(&it) != isRight {
			t.Fatalf("%q: %v, %v, seed %d", it, Verify(&it), VerifyByCrypto(&it), seed)
		}
	}
}

// There is one text of some bytes: bits behind the last byte are none.
func TestOtherBits(t *testing.T) {
	digits := "ABCDEFGHIJKLMNOPQRSTUVWXYZabcdefghijklmnopqrstuvwxyz0123456789+/"
	key := must(Generate())
	signature := must(key.Sign(nil))
	point := must(base64.StdEncoding.DecodeString(strings.TrimPrefix(key.PublicKey(), Algorithm+":")))
	for _, length := range []int{1, 2, 64, 65} {
		text := TextOf(append(append([]byte{}, point...), point...)[:length])
		body := strings.TrimRight(text, "=")
		for _, digit := range digits {
			other := body[:len(body)-1] + string(digit) + text[len(body):]
			_, err := weoldrin.Verify(other, nil, signature)
			decoded := must(base64.StdEncoding.DecodeString(strings.TrimPrefix(other, Algorithm+":")))
			isOne, isBad := TextOf(decoded) == other, errors.Is(err, weoldrin.ErrBadArgument)
			if isOne == isBad || isOne != (bytesOf(other) != nil) {
				t.Errorf("%s: %v", other, err)
			}
		}
	}
}

func must[T any](it T, err error) T {
	if err != nil {
		panic(err)
	}
	return it
}

// A key that is saved is the same one, in the forms that OpenSSL writes too.
func TestKeys(t *testing.T) {
	key := must(Generate())
	saved := must(key.ToPEM())
	for _, it := range [][]byte{saved, append([]byte("a note\n"), saved...)} {
		if again := must(FromPEM(it)); again.PublicKey() != key.PublicKey() {
			t.Errorf("another key: %v", again)
		}
	}
	for _, form := range []string{"%v", "%+v", "%#v", "%s", "%q"} {
		for _, it := range []string{fmt.Sprintf(form, key), fmt.Sprintf(form, *key)} {
			if !strings.Contains(it, "SigningKey of "+key.PublicKey()) || strings.Contains(it, key.key.D.String()) {
				t.Errorf("%s shows %s", form, it)
			}
		}
	}
	for name, it := range map[string][]byte{
		"nothing": nil, "text": []byte("key"), "cut": saved[:len(saved)/2],
		"no DER":    bytes.Replace(saved, []byte("\nM"), []byte("\nN"), 1),
		"encrypted": bytes.ReplaceAll(saved, []byte("PRIVATE KEY"), []byte("ENCRYPTED PRIVATE KEY")),
	} {
		if _, err := FromPEM(it); err != ErrNotAKey {
			t.Errorf("%s: %v", name, err)
		}
	}
}

// openssl runs the program, and gives what it wrote to a file.
func openssl(t *testing.T, words ...string) []byte {
	t.Helper()
	path := filepath.Join(t.TempDir(), "out")
	if said, err := exec.Command("openssl", append(words, "-out", path)...).CombinedOutput(); err != nil {
		t.Fatalf("%v: %s", err, said)
	}
	return must(os.ReadFile(path))
}

func TestKeysOfOpenSSL(t *testing.T) {
	if _, err := exec.LookPath("openssl"); err != nil {
		t.Skip("the program openssl is not installed")
	}
	for _, words := range [][]string{
		{"ecparam", "-genkey", "-name", "prime256v1"},
		{"ecparam", "-genkey", "-noout", "-name", "prime256v1"},
		{"genpkey", "-algorithm", "EC", "-pkeyopt", "ec_paramgen_curve:P-256"},
	} {
		key := must(FromPEM(openssl(t, words...)))
		question := weoldrin.Question{Key: key.PublicKey(), Message: []byte("x"), Signature: must(key.Sign([]byte("x")))}
		if !Verify(&question) {
			t.Errorf("%v: the signature does not belong", words)
		}
	}
	for _, words := range [][]string{
		{"ecparam", "-genkey", "-name", "secp384r1"},
		{"genpkey", "-algorithm", "ED25519"},
	} {
		if _, err := FromPEM(openssl(t, words...)); err != ErrOtherKey {
			t.Errorf("%v: %v", words, err)
		}
	}
}

// The form of a signature is read as the library reads it, before crypto/ecdsa is asked.
func TestIntegers(t *testing.T) {
	one := func(bytes ...byte) []byte { return append([]byte{2, byte(len(bytes))}, bytes...) }
	long := func(first byte, length int) []byte { return append([]byte{first}, make([]byte, length-1)...) }
	for name, it := range map[string]struct {
		integer []byte
		isOne   bool
	}{
		"small":       {one(1), true},
		"zero":        {one(0), true},
		"greatest":    {one(append([]byte{0}, long(255, 32)...)...), true},
		"32 bytes":    {one(long(127, 32)...), true},
		"none":        {one(), false},
		"negative":    {one(128), false},
		"not minimal": {one(0, 127), false},
		"33 bytes":    {one(long(1, 33)...), false},
		"34 bytes":    {one(append([]byte{0}, long(128, 33)...)...), false},
		"other tag":   {[]byte{3, 1, 1}, false},
		"cut off":     {[]byte{2, 2, 1}, false},
	} {
		rest, isRead := behindInteger(it.integer)
		if isRead != it.isOne || isRead && len(rest) != 0 {
			t.Errorf("%s: %v is read as %v", name, it.integer, isRead)
		}
	}
}
