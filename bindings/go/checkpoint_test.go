package weoldrin_test

import (
	"bytes"
	"encoding/base64"
	"encoding/binary"
	"encoding/json"
	"fmt"
	"math"
	"strings"
	"testing"

	"weoldrin.example/weoldrin"
	"weoldrin.example/weoldrin/p256"
	"weoldrin.example/weoldrin/records"
)

// The ids of logs by their names, the leaves of a registry's log, and what is signed of its checkpoints: the bytes and
// the JSON of docs/FORMATS.md. And whether keys that an operator log lets sign have signed one.

// noHashes are texts that are none of a hash.
var noHashes = []string{
	"", "sha256", "sha256:", "sha256:00", "sha512" + root8[6:], "sha256:g" + root8[8:], root8 + " ", root8[7:], "é", "\xff",
}

// upper is the text of a hash in upper case, in which it is read too.
func upper(hash string) string {
	return "sha256:" + strings.ToUpper(hash[7:])
}

// prefixed is a text in the prefix encoding.
func prefixed(text string) []byte {
	return append(binary.AppendUvarint(nil, uint64(len(text))), text...)
}

func TestLogIDs(t *testing.T) {
	const prefix = "WARG-PACKAGE-LOG-ID-V0:WARG-PACKAGE-ID-V0"
	long := strings.Repeat("a", 200) + ":b"
	// The first stands in docs/TRUST.md.
	for name, id := range map[string]string{
		"example:math":          "sha256:af6410747c0a7692c8dc4cf6f83cbb8da9041875f1ad9a5a2fca0eef51379ec1",
		"a:b":                   records.SHA256Text([]byte(prefix + "\x03a:b")),
		"example-two:math-lib2": "sha256:954cc322ef9e30646338e53401891cdc1a0ade7d345971c4ffefc3656cb26a00",
		long:                    records.SHA256Text([]byte(prefix + "\xca\x01" + long)),
	} {
		equal(t, must(weoldrin.LogID(weoldrin.Package, name)), id)
	}
	equal(t, must(weoldrin.LogID(weoldrin.Operator, "")), records.SHA256Text([]byte("WARG-OPERATOR-LOG-ID-V0")))
	equal(t, must(weoldrin.LogID(weoldrin.Operator, "")),
		"sha256:0db9178aabc877b42f03a038bf453ee53f08e3c8c55fab916043428078596bfb")
}

func TestNamesOfNoLog(t *testing.T) {
	long := strings.Repeat("a", 1<<20)
	for _, name := range []string{
		"", ":", "a:", ":b", "math", "Example:math", "example:Math", "a:b:c", "a::b", "a-:b", "-a:b", "a--b:c", "1a:b",
		"a:1b", "a_b:c", "a:b ", " a:b", "a:b\x00", "\x00", "a:é", "a:\xff", "\xff:b", long,
	} {
		_, err := weoldrin.LogID(weoldrin.Package, name)
		isRefused(t, err, weoldrin.ErrBadArgument, "BadName")
	}
	for _, name := range []string{"example:math", "a", " ", "\x00", "\xff", long} {
		_, err := weoldrin.LogID(weoldrin.Operator, name)
		isRefused(t, err, weoldrin.ErrBadArgument, "BadName")
	}
	for _, kind := range []weoldrin.Kind{2, math.MaxUint32} {
		for _, name := range []string{"", "example:math", "\xff"} {
			_, err := weoldrin.LogID(kind, name)
			isRefused(t, err, weoldrin.ErrBadArgument, "NoKind")
		}
	}
}

func TestLeaves(t *testing.T) {
	wanted := bytes.Join([][]byte{[]byte("WARG-LOG-LEAF-V0"), prefixed(log2), prefixed(record5)}, nil)
	equal(t, string(must(weoldrin.Leaf(log2, record5))), string(wanted))
	equal(t, string(must(weoldrin.Leaf(upper(log2), upper(record5)))), string(wanted))
	for _, it := range noHashes {
		_, err := weoldrin.Leaf(it, record5)
		isRefused(t, err, weoldrin.ErrBadArgument, "BadText")
		_, err = weoldrin.Leaf(log2, it)
		isRefused(t, err, weoldrin.ErrBadArgument, "BadText")
	}
}

// it is a checkpoint of a time that 32 bits do not hold.
func it() weoldrin.Checkpoint {
	return weoldrin.Checkpoint{LogRoot: root8, LogLength: 8, MapRoot: mapRoot, Timestamp: 1<<32 + 5}
}

// with is that checkpoint, changed.
func with(change func(*weoldrin.Checkpoint)) weoldrin.Checkpoint {
	other := it()
	change(&other)
	return other
}

// others differ from that checkpoint in a field, or have two exchanged.
var others = []weoldrin.Checkpoint{
	with(func(c *weoldrin.Checkpoint) { c.LogRoot = root7 }),
	with(func(c *weoldrin.Checkpoint) { c.LogLength = 9 }),
	with(func(c *weoldrin.Checkpoint) { c.LogLength = 8 + 1<<32 }),
	with(func(c *weoldrin.Checkpoint) { c.MapRoot = root7 }),
	with(func(c *weoldrin.Checkpoint) { c.Timestamp = 5 }),
	with(func(c *weoldrin.Checkpoint) { c.Timestamp++ }),
	with(func(c *weoldrin.Checkpoint) { c.LogRoot, c.MapRoot = c.MapRoot, c.LogRoot }),
	with(func(c *weoldrin.Checkpoint) { c.LogLength, c.Timestamp = c.Timestamp, c.LogLength }),
}

// messageOf is what is signed of a checkpoint, by definition.
func messageOf(c weoldrin.Checkpoint) []byte {
	message := []byte("WARG-CHECKPOINT-SIGNATURE-V0:WARG-TIMESTAMPED-CHECKPOINT-V0")
	message = binary.AppendUvarint(message, c.LogLength)
	message = append(append(message, prefixed(c.LogRoot)...), prefixed(c.MapRoot)...)
	return binary.AppendUvarint(message, c.Timestamp)
}

func TestMessages(t *testing.T) {
	numbers := []uint64{0, 1, 127, 128, math.MaxUint32, math.MaxUint32 + 1, 1 << 63, math.MaxUint64}
	for _, length := range numbers {
		for _, timestamp := range numbers {
			c := weoldrin.Checkpoint{LogRoot: root8, LogLength: length, MapRoot: mapRoot, Timestamp: timestamp}
			equal(t, string(must(c.Message())), string(messageOf(c)))
			wanted := string(messageOf(c))
			c.LogRoot, c.MapRoot = upper(root8), upper(mapRoot)
			equal(t, string(must(c.Message())), wanted)
		}
	}
	for _, text := range noHashes {
		for _, c := range withRoot(text) {
			_, err := c.Message()
			isRefused(t, err, weoldrin.ErrBadArgument, "BadText")
		}
	}
}

// withRoot are the checkpoints that have this for a root.
func withRoot(text string) []weoldrin.Checkpoint {
	return []weoldrin.Checkpoint{
		with(func(c *weoldrin.Checkpoint) { c.LogRoot = text }),
		with(func(c *weoldrin.Checkpoint) { c.MapRoot = text }),
	}
}

const (
	checkpointJSON = `{"logRoot":"` + root8 + `","logLength":8,"mapRoot":"` + mapRoot + `","timestamp":4294967301}`
	signedJSON     = `{"contents":` + checkpointJSON + `,"keyId":"an id","signature":"a text"}`
)

func TestJSONOfCheckpoints(t *testing.T) {
	var c weoldrin.Checkpoint
	succeeds(t, json.Unmarshal([]byte(checkpointJSON), &c))
	equal(t, c, it())
	equal(t, string(must(json.Marshal(c))), checkpointJSON)
	var signed weoldrin.SignedCheckpoint
	succeeds(t, json.Unmarshal([]byte(signedJSON), &signed))
	equal(t, signed, weoldrin.SignedCheckpoint{Contents: it(), KeyID: "an id", Signature: "a text"})
	equal(t, string(must(json.Marshal(signed))), signedJSON)
	// Other members are passed over, and of those of one name the last is taken.
	more := strings.Replace(checkpointJSON, "{", `{"more":null,"LOGROOT":7,"timestamp":"x",`, 1)
	succeeds(t, json.Unmarshal([]byte(more), &c))
	equal(t, c, it())
}

func TestFaultsOfJSON(t *testing.T) {
	for name, value := range map[string]string{
		"logRoot": `"` + root8 + `"`, "logLength": "8", "mapRoot": `"` + mapRoot + `"`, "timestamp": "4294967301",
	} {
		member := `"` + name + `":` + value
		hasFault(t, strings.Replace(checkpointJSON, member, `"more":7`, 1), "Missing")
		hasFault(t, strings.Replace(checkpointJSON, name, strings.ToUpper(name), 1), "Missing")
		for _, wrong := range []string{"null", "[]", "{}", "true", "1.0", "1e2", "-0", "-1", "18446744073709551616"} {
			hasFault(t, strings.Replace(checkpointJSON, member, `"`+name+`":`+wrong, 1), "WrongType")
		}
	}
	for _, text := range []string{"null", "[]", "7", `"text"`, "true"} {
		hasFault(t, text, "WrongType")
	}
	for _, it := range []string{"contents", "keyId", "signature"} {
		hasFault(t, strings.Replace(signedJSON, it, "more", 1), "Missing")
	}
	for _, it := range []string{`"an id"`, `"a text"`, checkpointJSON} {
		for _, wrong := range []string{"null", "7", "[]", "true"} {
			hasFault(t, strings.Replace(signedJSON, it, wrong, 1), "WrongType")
		}
	}
	var c weoldrin.Checkpoint
	strange := strings.Replace(checkpointJSON, ":8", ":NaN", 1)
	for _, text := range []string{"", "{", checkpointJSON[1:], checkpointJSON + ",", strange} {
		if json.Unmarshal([]byte(text), &c) == nil {
			t.Errorf("%q is read", text)
		}
	}
}

// hasFault fails a test where the JSON of a signed checkpoint, or of one that would stand in it, has another fault.
func hasFault(t *testing.T, text, name string) {
	t.Helper()
	if !strings.HasPrefix(text, `{"contents"`) && !strings.HasPrefix(text, `{"more":`+checkpointJSON) {
		var c weoldrin.Checkpoint
		isRefused(t, json.Unmarshal([]byte(text), &c), weoldrin.ErrBadArgument, name)
		equal(t, c, weoldrin.Checkpoint{})
		text = strings.Replace(signedJSON, checkpointJSON, text, 1)
	}
	var signed weoldrin.SignedCheckpoint
	isRefused(t, json.Unmarshal([]byte(text), &signed), weoldrin.ErrBadArgument, name)
	equal(t, signed, weoldrin.SignedCheckpoint{})
}

// signers are the keys of an operator log, by what they may do in it.
type signers struct {
	// The first begins the log, and so holds all permissions. The second was given the one to sign beside another, the
	// third alone.
	first, second, third *p256.SigningKey
	// One was given another permission, one had that to sign taken, and one stands in no record.
	defines, revoked, unknown *p256.SigningKey
}

// Keys of an algorithm that the library does not verify: one that may sign, and one that may not.
const word, otherWord = "word:AAAA", "word:AAAB"

// signing is a log of operators with such keys.
func signing() (*weoldrin.OperatorLog, signers) {
	made := func() *p256.SigningKey { return must(p256.Generate()) }
	keys := signers{made(), made(), made(), made(), made(), made()}
	log := must(weoldrin.NewOperatorLog())
	grant := func(key string, permissions ...weoldrin.Permission) records.Entry {
		return must(records.Grant(weoldrin.Operator, key, permissions...))
	}
	add(log, keys.first,
		records.Init(keys.first.PublicKey()),
		grant(keys.second.PublicKey(), weoldrin.MayDefineNamespace, weoldrin.MayCommit),
		grant(keys.third.PublicKey(), weoldrin.MayCommit),
		grant(keys.defines.PublicKey(), weoldrin.MayDefineNamespace, weoldrin.MayImportNamespace),
		grant(keys.revoked.PublicKey(), weoldrin.MayCommit, weoldrin.MayImportNamespace),
		grant(word, weoldrin.MayCommit),
		grant(otherWord, weoldrin.MayDefineNamespace),
	)
	add(log, keys.third, revoke(keys.revoked))
	return log, keys
}

func revoke(key *p256.SigningKey) records.Entry {
	return must(records.Revoke(weoldrin.Operator, records.KeyID(key.PublicKey()), weoldrin.MayCommit))
}

// add appends a record of these entries.
func add(log *weoldrin.OperatorLog, signer *p256.SigningKey, entries ...records.Entry) {
	if err := log.AppendSigned(record(log, signer, start, entries...)); err != nil {
		panic(err)
	}
}

// asked is what a log answers, and the one that goes on from its saved state, which is one answer.
func asked(t *testing.T, log *weoldrin.OperatorLog, c weoldrin.Checkpoint, keyID, signature string) string {
	t.Helper()
	resumed := must(weoldrin.OperatorLogFromJSON(must(log.ToJSON())))
	defer resumed.Close()
	seen := answer(log.VerifyCheckpoint(c, keyID, signature))
	equal(t, answer(resumed.VerifyCheckpoint(c, keyID, signature)), seen)
	return seen
}

func TestKeysThatMaySign(t *testing.T) {
	log, keys := signing()
	defer log.Close()
	all := []*p256.SigningKey{keys.first, keys.second, keys.third}
	for _, key := range all {
		id, signature := records.KeyID(key.PublicKey()), must(key.Sign(messageOf(it())))
		equal(t, must(log.KeyHasPermissionToSignCheckpoints(id)), true)
		equal(t, asked(t, log, it(), id, signature), "holds")
		for _, other := range others {
			equal(t, asked(t, log, other, id, signature), "does not hold")
			equal(t, asked(t, log, it(), id, must(key.Sign(messageOf(other)))), "does not hold")
			equal(t, asked(t, log, other, id, must(key.Sign(messageOf(other)))), "holds")
		}
		for _, other := range all {
			if other != key {
				equal(t, asked(t, log, it(), id, must(other.Sign(messageOf(it())))), "does not hold")
			}
		}
	}
}

// unreadable are texts that can't be read as a signature.
var unreadable = []string{"", "ecdsa-p256", ":AAAA", "ecdsa-p256:!", "ecdsa-p256:AAA", "ecdsa-p256:AAAA\n", "é", "\xff"}

// Then the signature is not looked at, nor its text read.
func TestKeysThatMayNotSign(t *testing.T) {
	log, keys := signing()
	defer log.Close()
	for _, key := range []*p256.SigningKey{keys.defines, keys.revoked, keys.unknown} {
		id := records.KeyID(key.PublicKey())
		equal(t, must(log.KeyHasPermissionToSignCheckpoints(id)), false)
		for _, text := range append(unreadable, must(key.Sign(messageOf(it())))) {
			equal(t, asked(t, log, it(), id, text), "does not hold")
		}
	}
	id, signature := records.KeyID(keys.first.PublicKey()), must(keys.first.Sign(messageOf(it())))
	for _, other := range []string{"", "sha256:00", "é", id[:70], strings.ToUpper(id), keys.first.PublicKey()} {
		equal(t, asked(t, log, it(), other, signature), "does not hold")
	}
	empty := must(weoldrin.NewOperatorLog())
	defer empty.Close()
	equal(t, asked(t, empty, it(), id, signature), "does not hold")
	for _, other := range []string{"\xff", id + "\xc0"} {
		equal(t, asked(t, log, it(), other, signature), "BadText")
	}
}

func TestSignaturesOfOtherTexts(t *testing.T) {
	log, keys := signing()
	defer log.Close()
	id, signature := records.KeyID(keys.first.PublicKey()), must(keys.first.Sign(messageOf(it())))
	message := messageOf(it())
	for _, other := range [][]byte{nil, message[:len(message)-1], append(messageOf(it()), 0), message[29:]} {
		equal(t, asked(t, log, it(), id, must(keys.first.Sign(other))), "does not hold")
	}
	der := must(base64.StdEncoding.DecodeString(signature[len("ecdsa-p256:"):]))
	longer := p256.TextOf(append(der, 0))
	for _, text := range []string{changed(signature), longer, "ecdsa-p256:", "ecdsa-p256:AA==", "ecdsa-p384:AAAA", word} {
		equal(t, asked(t, log, it(), id, text), "does not hold")
	}
	for _, text := range unreadable {
		equal(t, asked(t, log, it(), id, text), "BadText")
	}
}

func TestCheckpointsByOtherAlgorithms(t *testing.T) {
	log, keys := signing()
	defer log.Close()
	for _, text := range append(unreadable, word, must(keys.first.Sign(messageOf(it())))) {
		equal(t, asked(t, log, it(), records.KeyID(word), text), "UnknownAlgorithm")
		equal(t, asked(t, log, it(), records.KeyID(otherWord), text), "does not hold")
	}
	_, err := log.VerifyCheckpoint(it(), records.KeyID(word), word)
	isRefused(t, err, weoldrin.ErrUnknownAlgorithm, "UnknownAlgorithm")
}

func TestRootsOfNoHash(t *testing.T) {
	log, keys := signing()
	defer log.Close()
	signature := must(keys.first.Sign(messageOf(it())))
	for _, id := range []string{records.KeyID(keys.first.PublicKey()), records.KeyID(word), "another"} {
		for _, text := range noHashes {
			for _, c := range withRoot(text) {
				equal(t, asked(t, log, c, id, signature), "BadText")
				_, err := log.VerifyCheckpoint(c, id, signature)
				isRefused(t, err, weoldrin.ErrBadArgument, "BadText")
			}
		}
	}
}

func TestWhoMaySignChanges(t *testing.T) {
	log, keys := signing()
	defer log.Close()
	second, defines := records.KeyID(keys.second.PublicKey()), records.KeyID(keys.defines.PublicKey())
	bySecond, byDefines := must(keys.second.Sign(messageOf(it()))), must(keys.defines.Sign(messageOf(it())))
	before := fmt.Sprint(must(log.Head()), must(log.ToJSON()))
	equal(t, asked(t, log, it(), second, bySecond), "holds")
	equal(t, asked(t, log, it(), defines, byDefines), "does not hold")
	equal(t, fmt.Sprint(must(log.Head()), must(log.ToJSON())), before)
	granted := must(records.Grant(weoldrin.Operator, keys.defines.PublicKey(), weoldrin.MayCommit))
	add(log, keys.first, revoke(keys.second), granted)
	equal(t, asked(t, log, it(), second, bySecond), "does not hold")
	equal(t, asked(t, log, it(), defines, byDefines), "holds")
}

func TestCheckpointsOfNoLog(t *testing.T) {
	log, keys := signing()
	signature := must(keys.first.Sign(messageOf(it())))
	log.Close()
	for _, none := range []*weoldrin.OperatorLog{log, {}} {
		for _, c := range append(withRoot(""), it()) {
			_, err := none.VerifyCheckpoint(c, records.KeyID(keys.first.PublicKey()), signature)
			isRefused(t, err, weoldrin.ErrNotOpen, "NotOpen")
		}
	}
}
