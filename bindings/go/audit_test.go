package weoldrin_test

import (
	"encoding/hex"
	"os"
	"path/filepath"
	"strings"
	"testing"

	"weoldrin.example/weoldrin"
	"weoldrin.example/weoldrin/records"
)

// linesOf are the lines of a log.
func linesOf(envelopes [][]byte) string {
	var text strings.Builder
	for _, it := range envelopes {
		text.WriteString(hex.EncodeToString(it) + "\n")
	}
	return text.String()
}

// told is what an audit of a text prints, for an auditor.
func told(t *testing.T, by weoldrin.Auditor, text string) string {
	t.Helper()
	path := filepath.Join(t.TempDir(), "log.hex")
	if err := os.WriteFile(path, []byte(text), 0o600); err != nil {
		t.Fatal(err)
	}
	verdict := must(by.Audit(path))
	line := verdict.String()
	equal(t, verdict.Accepted(), strings.HasPrefix(line, path+": ok "))
	if verdict.Refusal != nil {
		equal(t, verdict.Records, verdict.Refusal.Place)
	}
	return strings.TrimPrefix(line, path+": ")
}

func TestVerdicts(t *testing.T) {
	alice, bob := two()
	made := envelopes(4, alice, bob)
	text, head := linesOf(made), must(logOf(made).Head())
	forged := append([][]byte{}, made...)
	forged[2] = append([]byte{}, made[2]...)
	// A digit of the signature's base64.
	if digit := &forged[2][len(forged[2])-20]; *digit == 'A' {
		*digit = 'B'
	} else {
		*digit = 'A'
	}
	packages := weoldrin.Auditor{}
	for name, it := range map[string][2]string{
		"lawful":   {text, "ok 4 " + head},
		"returns":  {"# a log\r\n" + strings.ReplaceAll(text, "\n", "\r\n") + "#\n\n", "ok 4 " + head},
		"unended":  {strings.TrimSuffix(text, "\n"), "ok 4 " + head},
		"empty":    {"", "empty"},
		"comments": {"# a log\n\n", "empty"},
		"no hex":   {text + "0g\n", "bad line 4"},
		"odd":      {"#\n" + text[:len(text)-2] + "\n", "bad line 3"},
		"marked":   {"\xef\xbb\xbf" + text, "bad line 0: the file begins with a byte order mark"},
	} {
		t.Run(name, func(t *testing.T) { equal(t, told(t, packages, it[0]), it[1]) })
	}
	for name, it := range map[string][2]string{
		"forged":    {linesOf(forged), "refused 2 SignatureError: "},
		"cut":       {linesOf(made[1:]), "refused 0 "},
		"blank":     {"\n" + text, "refused 0 Contents.MissingTime: "},
		"no record": {"0b\n", "refused 0 ProtobufEnvelope.Group: "},
	} {
		t.Run(name, func(t *testing.T) {
			if seen := told(t, packages, it[0]); !strings.HasPrefix(seen, it[1]) || strings.Contains(seen, "\n") {
				t.Errorf("seen %s", seen)
			}
		})
	}
	blank := told(t, packages, text+"\n"+text)
	equal(t, strings.HasSuffix(blank, "; the line is blank: only the last line of a file may be"), true)
	equal(t, told(t, weoldrin.Auditor{AllowEmpty: true}, ""), "ok 0 none")
	other := told(t, weoldrin.Auditor{Kind: weoldrin.Operator}, text)
	equal(t, strings.HasSuffix(other, "; it is a record of a package's log: is the kind right?"), true)
	others := told(t, packages, linesOf([][]byte{must(operators(alice).Record(0)).Envelope}))
	equal(t, strings.HasSuffix(others, "; it is a record of an operator log: is the kind right?"), true)
}

// A file that can't be read has its fault, and does not end the audit of the others.
func TestFiles(t *testing.T) {
	alice, bob := two()
	folder := t.TempDir()
	paths := []string{filepath.Join(folder, "missing"), folder}
	for length := 1; length < 5; length++ {
		paths = append(paths, filepath.Join(folder, "log"+string(rune('0'+length))))
		if err := os.WriteFile(paths[length+1], []byte(linesOf(envelopes(length, alice, bob))), 0o600); err != nil {
			t.Fatal(err)
		}
	}
	for _, workers := range []int{0, 1, 3, 100} {
		verdicts := must(weoldrin.Auditor{Workers: workers}.AuditMany(paths))
		equal(t, verdicts[0].Fault.Name+" "+verdicts[1].Fault.Name, weoldrin.Missing+" "+weoldrin.Unreadable)
		equal(t, verdicts[1].String(), folder+": it can't be read: is a directory")
		for place, it := range verdicts[2:] {
			equal(t, it.Path, paths[place+2])
			equal(t, it.Records, place+1)
			equal(t, it.Accepted(), true)
		}
	}
	equal(t, len(must(weoldrin.AuditMany(nil, weoldrin.Package))), 0)
	equal(t, must(weoldrin.Audit(paths[2], weoldrin.Package)).Records, 1)
	for _, path := range paths {
		_, err := weoldrin.Audit(path, 7)
		isRefused(t, err, weoldrin.ErrBadArgument, "NoKind")
	}
	strange := must(weoldrin.Audit("x\x1b[2J\nlog: ok 9", weoldrin.Package))
	equal(t, strange.String(), `x\u{1b}[2J\u{a}log: ok 9: there is no such file`)
}

// Keys of another algorithm are refused by name, or verified by the caller.
func TestOtherVerifiers(t *testing.T) {
	key := "toy:YWxpY2U="
	contents := records.Contents("", start, records.Init(key))
	sign := func([]byte) (string, error) { return "toy:", nil }
	text := linesOf([][]byte{must(records.Signed(weoldrin.Package, contents, key, sign))})
	seen := told(t, weoldrin.Auditor{}, text)
	equal(t, strings.HasPrefix(seen, "refused 0 UnknownAlgorithm: "), true)
	yes := weoldrin.Auditor{Verify: func(it *weoldrin.Question) bool { return it.Key == key }}
	equal(t, strings.HasPrefix(told(t, yes, text), "ok 1 sha256:"), true)
	no := weoldrin.Auditor{Verify: func(*weoldrin.Question) bool { return false }}
	equal(t, strings.HasPrefix(told(t, no, text), "refused 0 SignatureError: "), true)
}
