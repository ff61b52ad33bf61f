package weoldrin_test

import (
	"crypto/sha256"
	"encoding/base64"
	"encoding/hex"
	"errors"
	"fmt"
	"reflect"
	"sort"
	"strconv"
	"strings"
	"time"

	"weoldrin.example/weoldrin"
	"weoldrin.example/weoldrin/internal/rows"
	"weoldrin.example/weoldrin/records"
)

// What the rows of conformance/ that speak of whole logs say in words, and what a log answers to them.

var people = []string{"alice", "bob", "carol", "mallory"}

// errLeftOut is of a question that the library's calls do not answer.
var errLeftOut = errors.New("no call answers it")

// The toy signature scheme: a key is the bytes of a name, a signature the digest of these and the message.

func toyText(data []byte) string {
	return "toy:" + base64.StdEncoding.EncodeToString(data)
}

func toyKey(name string) string {
	return toyText([]byte(name))
}

func toySign(name string, message []byte) string {
	digest := sha256.Sum256(append([]byte(name), message...))
	return toyText(digest[:])
}

func toyVerify(question *weoldrin.Question) bool {
	digits := strings.TrimPrefix(question.Key, "toy:")
	name, err := base64.StdEncoding.DecodeString(digits)
	return err == nil && digits != question.Key && question.Signature == toySign(string(name), question.Message)
}

// idOf is the id of a person's key; another name is an id itself.
func idOf(name string) string {
	for _, it := range people {
		if it == name {
			return records.KeyID(toyKey(name))
		}
	}
	return name
}

// owner is whose key an id names.
func owner(id string) string {
	for _, it := range people {
		if idOf(it) == id {
			return it
		}
	}
	return id
}

// cut is a text's first words, so many as are wanted, with the rest behind the last of them.
func cut(text string, count int) []string {
	return append(strings.SplitN(text, " ", count), make([]string, count)...)[:count]
}

func permissionsOf(text string) []weoldrin.Permission {
	var found []weoldrin.Permission
	for _, it := range strings.Fields(text) {
		found = append(found, weoldrin.Permission(it))
	}
	return found
}

func entryOf(kind weoldrin.Kind, text string) records.Entry {
	words := cut(text, 3)
	verb, subject, rest := words[0], words[1], words[2]
	switch verb {
	case "init":
		return records.Init(toyKey(subject))
	case "grant":
		return must(records.Grant(kind, toyKey(subject), permissionsOf(rest)...))
	case "revoke":
		return must(records.Revoke(kind, idOf(subject), permissionsOf(rest)...))
	case "release":
		return records.Release(subject, records.SHA256Text([]byte(rows.TextOf(strings.TrimSpace(rest)))))
	case "yank":
		return records.Yank(subject)
	case "define":
		return records.DefineNamespace(rows.TextOf(subject))
	case "import":
		return records.ImportNamespace(rows.TextOf(subject), rows.TextOf(rest))
	}
	panic("a strange entry: " + text)
}

// envelopeOf is the envelope that a line says, in a log whose last record has the id prev.
func envelopeOf(kind weoldrin.Kind, text, prev string) []byte {
	head, parts, isWords := strings.Cut(text, ":")
	if !isWords {
		return must(hex.DecodeString(strings.ReplaceAll(text, " ", "")))
	}
	words := strings.Fields(head)
	version := uint64(0)
	for _, turn := range words[2:] {
		switch {
		case turn == "unlinked":
			prev = ""
		case turn == "mislinked":
			prev = records.SHA256Text([]byte("another record"))
		case turn == "next":
			version = 1
		default:
			version = must(strconv.ParseUint(strings.TrimPrefix(turn, "v"), 10, 32))
		}
	}
	seconds, nanos, _ := strings.Cut(words[1], ".")
	at := time.Unix(must(strconv.ParseInt(seconds, 10, 64)), must(strconv.ParseInt(nanos, 10, 64)))
	var entries []records.Entry
	for _, it := range strings.Split(parts, ",") {
		if it = strings.TrimSpace(it); it != "" {
			entries = append(entries, entryOf(kind, it))
		}
	}
	contents := records.ContentsOfVersion(uint32(version), prev, at, entries...)
	sign := func(message []byte) (string, error) { return toySign(words[0], message), nil }
	return must(records.Signed(kind, contents, toyKey(words[0]), sign))
}

// anyLog is a log of either kind.
type anyLog interface {
	appender
	Append(envelope []byte, verify func(*weoldrin.Question) bool) error
	Len() (int, error)
	Permissions(keyID string) ([]weoldrin.Permission, error)
	PublicKey(keyID string) (string, error)
	Holds(keyID string, permission weoldrin.Permission) (bool, error)
	Chain(keyID string, permission weoldrin.Permission) ([]weoldrin.Link, error)
	ToJSON() (string, error)
}

func newLog(kind weoldrin.Kind) anyLog {
	if kind == weoldrin.Package {
		return must(weoldrin.NewPackageLog())
	}
	return must(weoldrin.NewOperatorLog())
}

func fromJSON(kind weoldrin.Kind, saved string) (anyLog, error) {
	if kind == weoldrin.Package {
		return weoldrin.PackageLogFromJSON(saved)
	}
	return weoldrin.OperatorLogFromJSON(saved)
}

// tried appends an envelope, and says why it was refused.
func tried(log anyLog, envelope []byte) *weoldrin.Error {
	err := log.Append(envelope, toyVerify)
	if err == nil {
		return nil
	}
	if !errors.Is(err, weoldrin.ErrRefused) && !errors.Is(err, weoldrin.ErrNoEnvelope) {
		panic(err)
	}
	return err.(*weoldrin.Error)
}

// isAnswer is whether an error is the cause that a row wants: its name, and the whole sentence.
func isAnswer(err *weoldrin.Error, wanted string, sentences *rows.Sentences, kind weoldrin.Kind) bool {
	words := rows.WordsOf(wanted)
	if words[0] == "Parse" {
		isTold := sentences.Told("envelope", words[1], nil, err.Sentence)
		return errors.Is(err, weoldrin.ErrNoEnvelope) && err.Name == words[1] && isTold
	}
	fields := words[1:]
	for place, it := range fields {
		fields[place] = idOf(it)
	}
	isTold := sentences.Told(kind.String(), words[0], fields, err.Sentence)
	return errors.Is(err, weoldrin.ErrRefused) && err.Name == words[0] && isTold
}

// stateOf is the state of a log, as a value of JSON.
func stateOf(log anyLog) (map[string]any, error) {
	text, err := log.ToJSON()
	if err != nil {
		return nil, err
	}
	return must(rows.Read(text)).(map[string]any), nil
}

// member is a member of an object of JSON, as an object; empty where there is none.
func member(of map[string]any, name string) map[string]any {
	found, _ := of[name].(map[string]any)
	return found
}

// stateAnswer is what a log answers of its state.
func stateAnswer(log anyLog, lookUp, subject string) (string, error) {
	switch lookUp {
	case "head", "head-json":
		return headAnswer(log, lookUp, subject)
	case "key":
		key, err := log.PublicKey(idOf(subject))
		return orNone(key), err
	case "permissions":
		held, err := log.Permissions(idOf(subject))
		if held == nil {
			return "none", err
		}
		return joined("only", held), err
	case "keys":
		state, err := stateOf(log)
		said := "only"
		for id := range member(state, "keys") {
			said += " " + strings.Join(append([]string{owner(id)}, names(must(log.Permissions(id)))...), "+")
		}
		return said, err
	case "saved":
		state, err := stateOf(log)
		if subject != "" {
			return rows.Written(member(state, "permissions")[idOf(subject)]), err
		}
		return rows.Written(state), err
	}
	if it, isPackage := log.(*weoldrin.PackageLog); isPackage {
		return packageAnswer(it, lookUp, subject)
	}
	return operatorAnswer(log.(*weoldrin.OperatorLog), lookUp, subject)
}

func headAnswer(log anyLog, lookUp, subject string) (string, error) {
	if lookUp == "head" && subject == "digest" {
		head, err := log.Head()
		return orNone(head), err
	}
	state, err := stateOf(log)
	head := member(state, "head")
	switch {
	case err != nil || head == nil:
		return "none", err
	case lookUp == "head-json":
		return rows.Written(head), nil
	case subject == "version" && head["version"] == nil:
		return "0", nil
	case subject == "version":
		return fmt.Sprint(head["version"]), nil
	default:
		return fmt.Sprint(head["timestamp"]), nil
	}
}

func packageAnswer(log *weoldrin.PackageLog, lookUp, subject string) (string, error) {
	switch lookUp {
	case "releases":
		said := "only"
		all, err := log.Releases()
		for _, it := range all {
			said += " " + it.Version
		}
		return said, err
	case "latest":
		found, err := log.Latest(subject)
		if found == nil {
			return "none", err
		}
		return found.Version, err
	case "release", "record", "content":
		found, err := log.Release(subject)
		return releaseAnswer(found, lookUp), err
	}
	panic("a strange question: " + lookUp)
}

func releaseAnswer(release *weoldrin.Release, lookUp string) string {
	switch {
	case release == nil:
		return "none"
	case lookUp == "record":
		return release.RecordID
	case lookUp == "content":
		return orNone(release.Content)
	}
	said := deed(release.By, release.Timestamp)
	if release.Yanked {
		said += ", yanked " + deed(release.YankedBy, release.YankedTimestamp)
	}
	return said
}

func deed(by string, at time.Time) string {
	return fmt.Sprintf("by %s at %d.%d", owner(by), at.Unix(), at.Nanosecond())
}

func operatorAnswer(log *weoldrin.OperatorLog, lookUp, subject string) (string, error) {
	switch lookUp {
	case "signs":
		signs, err := log.KeyHasPermissionToSignCheckpoints(idOf(subject))
		return fmt.Sprint(signs), err
	case "namespace":
		return namespaceAnswer(log, rows.TextOf(subject))
	case "namespaces":
		state, err := stateOf(log)
		said := "only"
		for name := range member(state, "namespaces") {
			said += " " + rows.Quoted(name) + " " + must(namespaceAnswer(log, name))
		}
		return said, err
	}
	panic("a strange question: " + lookUp)
}

func namespaceAnswer(log *weoldrin.OperatorLog, name string) (string, error) {
	switch found, err := log.NamespaceState(name); {
	case found == nil:
		return "none", err
	case found.Imported:
		return "imported from " + found.Registry, err
	default:
		return "defined", err
	}
}

func orNone(text string) string {
	if text == "" {
		return "none"
	}
	return text
}

func names(permissions []weoldrin.Permission) []string {
	found := make([]string, len(permissions))
	for place, it := range permissions {
		found[place] = string(it)
	}
	return found
}

func joined(head string, permissions []weoldrin.Permission) string {
	return strings.Join(append([]string{head}, names(permissions)...), " ")
}

// unordered is the names of a list and what is said of each, in one order.
func unordered(answer string) []string {
	parts := strings.Fields(strings.NewReplacer(" defined", "=", " imported from ", "=").Replace(answer))
	sort.Strings(parts)
	return parts
}

// isSame is whether two answers are the same: the names come from the saved state, which has them by their bytes, and
// permissions in the order of their kind.
func isSame(lookUp, seen, wanted string) bool {
	switch lookUp {
	case "keys", "namespaces", "permissions":
		return reflect.DeepEqual(unordered(seen), unordered(wanted))
	}
	return seen == wanted
}
