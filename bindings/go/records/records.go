// Package records writes records and the envelopes that carry them, in the bytes that the project's docs/FORMATS.md
// gives. Nothing is judged here: a log does that when the envelope is appended.
package records

import (
	"crypto/sha256"
	"encoding/hex"
	"fmt"
	"time"

	"weoldrin.example/weoldrin"
)

var prefixes = map[weoldrin.Kind]string{
	weoldrin.Package:  "WARG-PACKAGE-RECORD-SIGNATURE-V0:",
	weoldrin.Operator: "WARG-OPERATOR-RECORD-SIGNATURE-V0:",
}

// The numbers are those of crates/warg_permissions: `tools/release --copies` writes them.
var permissions = map[weoldrin.Kind]map[weoldrin.Permission]byte{
	weoldrin.Package:  {weoldrin.MayRelease: 1, weoldrin.MayYank: 2},
	weoldrin.Operator: {weoldrin.MayCommit: 1, weoldrin.MayDefineNamespace: 2, weoldrin.MayImportNamespace: 3},
}

// Newest is the newest version of the protocol.
const Newest = 1

// SHA256Text is the text of the SHA-256 digest of bytes, as it stands in records.
func SHA256Text(data []byte) string {
	digest := sha256.Sum256(data)
	return "sha256:" + hex.EncodeToString(digest[:])
}

// KeyID is the id of a key: the fingerprint of its text.
func KeyID(publicKey string) string {
	return SHA256Text([]byte(publicKey))
}

// Entry is an entry of a record.
type Entry []byte

// Init begins a log, by the key that signs it.
func Init(publicKey string) Entry {
	return field(1, text(1, publicKey), text(2, "sha256"))
}

// Grant gives permissions to a key. The error is that logs of this kind have no such permission.
func Grant(kind weoldrin.Kind, publicKey string, names ...weoldrin.Permission) (Entry, error) {
	return permitted(2, kind, publicKey, names)
}

// Revoke takes permissions from a key id. The error is that logs of this kind have no such permission.
func Revoke(kind weoldrin.Kind, keyID string, names ...weoldrin.Permission) (Entry, error) {
	return permitted(3, kind, keyID, names)
}

// Release releases a version of a package, whose content has this digest, as of SHA256Text.
func Release(version, content string) Entry {
	return field(4, text(1, version), text(2, content))
}

// Yank yanks a version of a package.
func Yank(version string) Entry {
	return field(5, text(1, version))
}

// DefineNamespace defines a namespace of operators.
func DefineNamespace(name string) Entry {
	return field(4, text(1, name))
}

// ImportNamespace imports a namespace from another registry.
func ImportNamespace(name, registry string) Entry {
	return field(5, text(1, name), text(2, registry))
}

// Contents are a record's bytes: the id of the record before it, which is empty for the first one, its time, and its
// entries. The record is of the newest version of the protocol.
func Contents(prev string, at time.Time, entries ...Entry) []byte {
	return ContentsOfVersion(Newest, prev, at, entries...)
}

// ContentsOfVersion are the bytes of a record of a version of the protocol.
func ContentsOfVersion(version uint32, prev string, at time.Time, entries ...Entry) []byte {
	var data []byte
	data = append(data, text(1, prev)...)
	data = append(data, number(2, uint64(version))...)
	data = append(data, field(3, number(1, uint64(at.Unix())), number(2, uint64(at.Nanosecond())))...)
	for _, it := range entries {
		data = append(data, field(4, it)...)
	}
	return data
}

// Message is what a record's signature signs.
func Message(kind weoldrin.Kind, contents []byte) []byte {
	return append([]byte(prefixes[kind]), contents...)
}

// Envelope is the envelope of a record that was signed.
func Envelope(contents []byte, keyID, signature string) []byte {
	return append(append(field(1, contents), text(2, keyID)...), text(3, signature)...)
}

// Signed is the envelope of a record, signed by a key: sign gives the text of a signature of a message. Where it fails,
// so does this, with its error.
func Signed(
	kind weoldrin.Kind, contents []byte, publicKey string, sign func(message []byte) (string, error),
) ([]byte, error) {
	signature, err := sign(Message(kind, contents))
	if err != nil {
		return nil, err
	}
	return Envelope(contents, KeyID(publicKey), signature), nil
}

func permitted(number byte, kind weoldrin.Kind, of string, names []weoldrin.Permission) (Entry, error) {
	var numbers []byte
	for _, it := range names {
		found, known := permissions[kind][it]
		if !known {
			return nil, fmt.Errorf("a log of a %v has no permission %q", kind, string(it))
		}
		numbers = append(numbers, found)
	}
	if numbers == nil {
		return field(number, text(1, of)), nil
	}
	return field(number, text(1, of), field(2, numbers)), nil
}

// The wire format of protobuf.

func varint(value uint64) []byte {
	var low []byte
	for ; value >= 128; value >>= 7 {
		low = append(low, byte(value)|128)
	}
	return append(low, byte(value))
}

func number(of byte, value uint64) []byte {
	if value == 0 {
		return nil
	}
	return append(varint(uint64(of)*8), varint(value)...)
}

func field(of byte, parts ...[]byte) []byte {
	length := 0
	for _, it := range parts {
		length += len(it)
	}
	data := append(varint(uint64(of)*8+2), varint(uint64(length))...)
	for _, it := range parts {
		data = append(data, it...)
	}
	return data
}

func text(of byte, value string) []byte {
	if value == "" {
		return nil
	}
	return field(of, []byte(value))
}
