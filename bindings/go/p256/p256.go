// Package p256 is ECDSA over the curve P-256 with SHA-256 (FIPS 186-5). The library verifies; crypto/ecdsa signs.
//
// A key's text is ecdsa-p256: and the base64 of a point of SEC 1, compressed (33 bytes) or not (65 bytes); it is
// written compressed. A signature's text is ecdsa-p256: and the base64 of the DER of an ECDSA-Sig-Value (RFC 3279).
package p256

import (
	"crypto/ecdsa"
	"crypto/elliptic"
	"crypto/rand"
	"crypto/sha256"
	"crypto/x509"
	"encoding/base64"
	"encoding/pem"
	"errors"
	"math/big"
	"strings"

	"weoldrin.example/weoldrin"
)

// Algorithm is the name of the scheme in the texts of keys and signatures.
const Algorithm = "ecdsa-p256"

// A longer text is that of no key and of no signature.
const longest = 1024

// The errors of a key's file.
var (
	// ErrNotAKey is of bytes that are the PEM of no private key.
	ErrNotAKey = errors.New("the bytes are the PEM of no private key")
	// ErrOtherKey is of a key that is not one of the curve P-256.
	ErrOtherKey = errors.New("the key is not one of the curve P-256")
)

// Verify is whether the signature belongs to the message under the key, by the library. Texts that can't be read, and
// those of other algorithms, belong to nothing. It panics where the library finds no memory.
func Verify(question *weoldrin.Question) bool {
	belongs, err := weoldrin.Verify(question.Key, question.Message, question.Signature)
	if errors.Is(err, weoldrin.ErrOutOfMemory) {
		panic(err)
	}
	return err == nil && belongs
}

// VerifyByCrypto is the same by crypto/ecdsa. What is read as a key and as a signature is what the library reads, and
// crypto/ecdsa is asked of nothing else.
func VerifyByCrypto(question *weoldrin.Question) bool {
	point, signature := bytesOf(question.Key), bytesOf(question.Signature)
	if !isDER(signature) {
		return false
	}
	key := keyOf(point)
	if key == nil {
		return false
	}
	digest := sha256.Sum256(question.Message)
	return ecdsa.VerifyASN1(key, digest[:], signature)
}

// SigningKey is a private key.
type SigningKey struct {
	key       *ecdsa.PrivateKey
	publicKey string
}

// Generate is a new key.
func Generate() (*SigningKey, error) {
	key, err := ecdsa.GenerateKey(elliptic.P256(), rand.Reader)
	if err != nil {
		return nil, err
	}
	return of(key), nil
}

// FromPEM is a key that was saved by ToPEM, or by OpenSSL: PKCS #8 or SEC 1, without a password. What stands before the
// key in the file is passed over. The errors are ErrNotAKey and ErrOtherKey.
func FromPEM(data []byte) (*SigningKey, error) {
	for block, rest := pem.Decode(data); block != nil; block, rest = pem.Decode(rest) {
		switch block.Type {
		case "PRIVATE KEY":
			found, err := x509.ParsePKCS8PrivateKey(block.Bytes)
			if err != nil {
				return nil, ErrNotAKey
			}
			key, isECDSA := found.(*ecdsa.PrivateKey)
			if !isECDSA {
				return nil, ErrOtherKey
			}
			return ofCurve(key)
		case "EC PRIVATE KEY":
			key, err := x509.ParseECPrivateKey(block.Bytes)
			if err != nil {
				return nil, ErrNotAKey
			}
			return ofCurve(key)
		}
	}
	return nil, ErrNotAKey
}

// ToPEM is the key as PEM (PKCS #8), without a password. Keep it secret.
func (k *SigningKey) ToPEM() ([]byte, error) {
	der, err := x509.MarshalPKCS8PrivateKey(k.key)
	if err != nil {
		return nil, err
	}
	return pem.EncodeToMemory(&pem.Block{Type: "PRIVATE KEY", Bytes: der}), nil
}

// PublicKey is the text of the public key.
func (k *SigningKey) PublicKey() string {
	return k.publicKey
}

// Sign is the text of a signature of the message.
func (k *SigningKey) Sign(message []byte) (string, error) {
	digest := sha256.Sum256(message)
	signature, err := ecdsa.SignASN1(rand.Reader, k.key, digest[:])
	if err != nil {
		return "", err
	}
	return TextOf(signature), nil
}

// String does not show the key.
func (k SigningKey) String() string {
	return "SigningKey of " + k.publicKey
}

// GoString does not show the key.
func (k SigningKey) GoString() string {
	return k.String()
}

// TextOf is the text of a key's point, or of a signature's DER.
func TextOf(data []byte) string {
	return Algorithm + ":" + base64.StdEncoding.EncodeToString(data)
}

func ofCurve(key *ecdsa.PrivateKey) (*SigningKey, error) {
	if key.Curve != elliptic.P256() {
		return nil, ErrOtherKey
	}
	return of(key), nil
}

func of(key *ecdsa.PrivateKey) *SigningKey {
	return &SigningKey{key: key, publicKey: TextOf(elliptic.MarshalCompressed(key.Curve, key.X, key.Y))}
}

// bytesOf are the bytes of a text, if it is their one text: without white space, more padding, or other bits behind the
// last byte. They are none otherwise.
func bytesOf(text string) []byte {
	digits := strings.TrimPrefix(text, Algorithm+":")
	if len(text) > longest || len(digits) == len(text) {
		return nil
	}
	data, err := base64.StdEncoding.DecodeString(digits)
	if err != nil || TextOf(data) != text {
		return nil
	}
	return data
}

// keyOf is the key of bytes that have the form of a point of SEC 1, compressed or not, if there is one.
func keyOf(point []byte) *ecdsa.PublicKey {
	var x, y *big.Int
	switch {
	case len(point) == 33 && (point[0] == 2 || point[0] == 3):
		x, y = elliptic.UnmarshalCompressed(elliptic.P256(), point)
	case len(point) == 65 && point[0] == 4:
		x, y = elliptic.Unmarshal(elliptic.P256(), point)
	}
	if x == nil {
		return nil
	}
	return &ecdsa.PublicKey{Curve: elliptic.P256(), X: x, Y: y}
}

// isDER is whether the bytes are the DER (X.690) of a SEQUENCE of two INTEGERs of at most 256 bits that are not
// negative, with nothing behind it.
func isDER(data []byte) bool {
	if len(data) < 8 || len(data) > 72 || data[0] != 0x30 || int(data[1]) != len(data)-2 {
		return false
	}
	rest, isRead := behindInteger(data[2:])
	if !isRead {
		return false
	}
	rest, isRead = behindInteger(rest)
	return isRead && len(rest) == 0
}

// behindInteger is what stands behind such an INTEGER, with which the bytes begin, if they do.
func behindInteger(data []byte) ([]byte, bool) {
	if len(data) < 2 || data[0] != 0x02 || int(data[1]) > len(data)-2 {
		return nil, false
	}
	end := 2 + int(data[1])
	return data[end:], isShortest(data[2:end])
}

// isShortest is whether the bytes say a number that is not negative and below 2^256, as few as serve.
func isShortest(number []byte) bool {
	switch {
	case len(number) == 0 || len(number) > 33 || number[0] >= 128:
		return false
	case len(number) == 1:
		return true
	case number[0] == 0:
		return number[1] >= 128
	default:
		return len(number) <= 32
	}
}
