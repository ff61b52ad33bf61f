// Signs and verifies by crypto/ecdsa: a line `sign PKCS8 MESSAGE` is answered with a signature, and
// `verify POINT MESSAGE SIGNATURE` with yes or no. Bytes are hex digits; `-` is no bytes.
package main

import (
	"bufio"
	"crypto/ecdsa"
	"crypto/elliptic"
	"crypto/rand"
	"crypto/sha256"
	"crypto/x509"
	"encoding/hex"
	"fmt"
	"math/big"
	"os"
	"strings"
)

func bytesOf(word string) []byte {
	if word == "-" {
		return nil
	}
	data, err := hex.DecodeString(word)
	if err != nil {
		panic(err)
	}
	return data
}

func sign(words []string) string {
	key, err := x509.ParsePKCS8PrivateKey(bytesOf(words[1]))
	if err != nil {
		panic(err)
	}
	hash := sha256.Sum256(bytesOf(words[2]))
	signature, err := ecdsa.SignASN1(rand.Reader, key.(*ecdsa.PrivateKey), hash[:])
	if err != nil {
		panic(err)
	}
	return hex.EncodeToString(signature)
}

func verify(words []string) string {
	point := bytesOf(words[1])
	var x, y *big.Int
	if len(point) == 33 {
		x, y = elliptic.UnmarshalCompressed(elliptic.P256(), point)
	} else {
		x, y = elliptic.Unmarshal(elliptic.P256(), point)
	}
	hash := sha256.Sum256(bytesOf(words[2]))
	if x != nil && ecdsa.VerifyASN1(&ecdsa.PublicKey{Curve: elliptic.P256(), X: x, Y: y}, hash[:], bytesOf(words[3])) {
		return "yes"
	}
	return "no"
}

func main() {
	lines := bufio.NewScanner(os.Stdin)
	lines.Buffer(nil, 1<<20)
	for lines.Scan() {
		words := strings.Split(lines.Text(), " ")
		if words[0] == "sign" {
			fmt.Println(sign(words))
		} else {
			fmt.Println(verify(words))
		}
	}
}
