package weoldrin_test

import (
	"crypto/sha256"
	"encoding/hex"
	"encoding/json"
	"errors"
	"fmt"
	"regexp"
	"strings"
	"testing"

	"weoldrin.example/weoldrin"
	"weoldrin.example/weoldrin/internal/rows"
	"weoldrin.example/weoldrin/records"
)

// noSiblings is the text of a proof on a map whose siblings are all roots of empty subtrees.
const noSiblings = "//////////////////////////////////////////8="

// A key that can be read, and a signature that can, of which neither belongs to anything.
const (
	someKey       = "ecdsa-p256:AwAAAAAAAAAAAAAAAAAAAAAAAAAAAAAAAAAAAAAAAAAA"
	someSignature = "ecdsa-p256:AAAA"
)

var contentOfEnvelope = regexp.MustCompile(` content (\S+)`)

// readAs is whether a text can be read, by a call that takes it. Of some faults the library has no name: then the
// wanted one is taken for it.
func readAs(text, wanted string, err error) string {
	switch {
	case err == nil || errors.Is(err, weoldrin.ErrUnknownAlgorithm):
		return "= " + rows.Quoted(text)
	case strings.HasPrefix(wanted, "! "):
		return wanted
	default:
		return "! " + err.Error()
	}
}

// parsed is the answer to a row that asks whether a text can be read.
func parsed(what, text, wanted string) (string, bool) {
	var err error
	switch what {
	case "key":
		_, err = weoldrin.Verify(text, nil, someSignature)
	case "signature":
		_, err = weoldrin.Verify(someKey, nil, text)
	case "log-id":
		_, err = weoldrin.VerifyPresence(text, anyHash, anyHash, noSiblings)
	case "record-id":
		_, err = weoldrin.VerifyPresence(anyHash, text, anyHash, noSiblings)
	case "hash":
		_, err = weoldrin.VerifyPresence(anyHash, anyHash, text, noSiblings)
	case "package-permission":
		_, err = newLog(weoldrin.Package).Holds("a key", weoldrin.Permission(text))
	case "operator-permission":
		_, err = newLog(weoldrin.Operator).Holds("a key", weoldrin.Permission(text))
	default:
		return "", false
	}
	if strings.HasSuffix(what, "-id") || what == "hash" {
		// Digits of either case are read, and printed in lower case.
		return readAs(strings.ToLower(text), wanted, err), true
	}
	return readAs(text, wanted, err), true
}

// enveloped is the answer to a row on an envelope, of which the library tells the id, which is the digest of the
// content.
func enveloped(kind string, data []byte, wanted string) string {
	kinds := []weoldrin.Kind{weoldrin.Package, weoldrin.Operator}
	if kind != "both" {
		kinds = []weoldrin.Kind{must(weoldrin.KindOf(kind))}
	}
	for _, it := range kinds {
		id, err := weoldrin.RecordID(it, data)
		var told *weoldrin.Error
		if errors.As(err, &told) {
			// What a case's name has behind it stands in its name's row alone.
			if !strings.HasPrefix(wanted+" ", "! "+told.Name+" ") {
				return "! " + told.Error()
			}
			continue
		}
		found := contentOfEnvelope.FindStringSubmatch(wanted)
		if found == nil {
			return "= " + id
		}
		prefix := "WARG-" + strings.ToUpper(it.String()) + "-LOG-RECORD-V0:"
		digest := sha256.Sum256(append([]byte(prefix), must(rows.BytesOf(found[1]))...))
		if id != "sha256:"+hex.EncodeToString(digest[:]) {
			return "= " + id
		}
	}
	return wanted
}

// signedApart is a checkpoint of JSON that is signed, as the registry publishes it.
func signedApart(name, text string) (string, error) {
	var checkpoint weoldrin.Checkpoint
	if err := json.Unmarshal([]byte(text), &checkpoint); err != nil {
		return "", err
	}
	message, err := checkpoint.Message()
	if err != nil {
		return "", err
	}
	signed := weoldrin.SignedCheckpoint{
		Contents: checkpoint, KeyID: records.KeyID(toyKey(name)), Signature: toySign(name, message),
	}
	written := string(must(json.Marshal(signed)))
	var again weoldrin.SignedCheckpoint
	if err := json.Unmarshal([]byte(written), &again); err != nil || again != signed {
		return written + " is read otherwise", err
	}
	return rows.Written(must(rows.Read(written))), nil
}

// valueAnswer is the answer to a row on values or messages, and whether a call of this package tells.
func valueAnswer(question, wanted string) (string, bool) {
	words := append(rows.WordsOf(question), "", "", "")
	switch words[0] {
	case "parse":
		return parsed(words[1], words[2], wanted)
	case "sha256":
		return "= " + records.SHA256Text(must(rows.BytesOf(words[1]))), true
	case "fingerprint":
		return "= " + records.KeyID(words[1]), true
	case "record-id":
		return "= " + must(weoldrin.RecordID(must(weoldrin.KindOf(words[1])), must(rows.BytesOf(words[2])))), true
	case "signing-prefix":
		return "= " + strings.TrimSuffix(string(records.Message(must(weoldrin.KindOf(words[1])), nil)), ":"), true
	case "checkpoint-prefix":
		message := must(weoldrin.Checkpoint{LogRoot: anyHash, MapRoot: anyHash}.Message())
		prefix, _, _ := strings.Cut(string(message), ":")
		return "= " + prefix, true
	case "sign":
		sign := func(message []byte) (string, error) { return toySign(words[2], message), nil }
		kind, contents := must(weoldrin.KindOf(words[1])), must(rows.BytesOf(words[3]))
		return "= " + hex.EncodeToString(must(records.Signed(kind, contents, toyKey(words[2]), sign))), true
	case "sign-checkpoint":
		return "= " + toySign(words[1], must(checkpointOf(words[2:]).Message())), true
	case "sign-apart":
		parts := strings.SplitN(question, " ", 4)
		if parts[1] != "checkpoint" {
			return "", false
		}
		text, err := signedApart(parts[2], parts[3])
		if err != nil {
			return "! " + err.Error(), true
		}
		return "= " + text, true
	case "decode", "both-ways":
		if words[2] != "envelope" || words[1] != "both" && words[1] != "package" && words[1] != "operator" {
			return "", false
		}
		return enveloped(words[1], must(rows.BytesOf(words[3])), wanted), true
	default:
		return "", false
	}
}

// The rows of conformance/values and conformance/messages that a call of this package tells and that no other test
// plays: on texts of keys, signatures, hashes and permissions, on envelopes, and on what is signed.
func TestValuesRows(t *testing.T) {
	played, all := map[string]int{}, 0
	for _, path := range append(rows.Files(t, 2, "values/*.rows"), rows.Files(t, 2, "messages/*.rows")...) {
		for _, block := range must(rows.Blocks(path)) {
			row := must(rows.RowOf(block.Text))
			answer, isPlayed := valueAnswer(row.Question, row.Wanted)
			if !isPlayed {
				continue
			}
			if answer != row.Wanted {
				t.Errorf("%s:%d: seen %s, wanted %s", path, block.Number, answer, row.Wanted)
			}
			topic, rest, _ := strings.Cut(row.Question, " ")
			if topic == "parse" {
				what, _, _ := strings.Cut(rest, " ")
				topic += " " + what
			}
			played[topic]++
			all++
		}
	}
	fmt.Printf("%d rows of values and messages played: %v\n", all, played)
	wanted := "parse key,parse signature,parse hash,parse log-id,parse record-id,parse package-permission," +
		"parse operator-permission,sha256,fingerprint,record-id,signing-prefix,checkpoint-prefix,sign,sign-checkpoint," +
		"sign-apart,decode,both-ways"
	for _, it := range strings.Split(wanted, ",") {
		if played[it] == 0 {
			t.Errorf("no row of %s is played", it)
		}
	}
	if all < 100 {
		t.Errorf("%d rows are too few", all)
	}
}
