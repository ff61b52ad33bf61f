package weoldrin_test

import (
	"bytes"
	"errors"
	"math"
	"reflect"
	"strings"
	"sync"
	"testing"
	"time"

	"weoldrin.example/weoldrin"
	"weoldrin.example/weoldrin/internal/rows"
	"weoldrin.example/weoldrin/p256"
	"weoldrin.example/weoldrin/records"
)

func two() (alice, bob *p256.SigningKey) {
	return must(p256.Generate()), must(p256.Generate())
}

func TestRecordsAndReleases(t *testing.T) {
	alice, bob := two()
	made := envelopes(4, alice, bob)
	log := logOf(made)
	defer log.Close()
	equal(t, must(log.Len()), 4)
	equal(t, *must(log.Last()), weoldrin.Last{Timestamp: start, Version: 1, Count: 4})
	equal(t, *must(must(weoldrin.PackageLogFromJSON(must(log.ToJSON()))).Last()), weoldrin.Last{Timestamp: start, Version: 1, Count: -1})
	equal(t, must(logOf(nil).Last()), nil)
	for place, it := range must(log.Records()) {
		if !bytes.Equal(it.Envelope, made[place]) {
			t.Errorf("another envelope at %d", place)
		}
		equal(t, it.ID, must(weoldrin.RecordID(weoldrin.Package, made[place])))
	}
	equal(t, must(log.Record(4)), nil)
	equal(t, must(log.Record(math.MaxInt)), nil)
	_, err := log.Record(-1)
	isRefused(t, err, weoldrin.ErrBadArgument, "OutOfRange")
	equal(t, must(log.Head()), must(weoldrin.RecordID(weoldrin.Package, made[3])))
	if must(log.Head()) == must(weoldrin.RecordID(weoldrin.Operator, made[3])) {
		t.Error("the id of an operator's record is that of a package's")
	}
	all := must(log.Releases())
	equal(t, len(all), 3)
	for place, it := range all {
		equal(t, it.Version, []string{"1.1.0", "1.2.0", "1.3.0"}[place])
	}
	latest := must(log.Latest("<1.3"))
	equal(t, *latest, *must(log.Release("1.2.0")))
	wanted := weoldrin.Release{
		Version: "1.2.0", RecordID: must(weoldrin.RecordID(weoldrin.Package, made[2])), By: records.KeyID(bob.PublicKey()),
		Timestamp: start, Content: records.SHA256Text([]byte("1.2.0")),
	}
	equal(t, *latest, wanted)
	equal(t, must(log.Latest(">=2")), nil)
	equal(t, must(log.Release("9.0.0")), nil)
}

func TestYank(t *testing.T) {
	alice, bob := two()
	log := logOf(envelopes(3, alice, bob))
	at := start.Add(7)
	if err := log.AppendSigned(record(log, alice, at, records.Yank("1.2.0"))); err != nil {
		t.Fatal(err)
	}
	yanked := must(log.Release("1.2.0"))
	equal(t, yanked.Yanked, true)
	equal(t, yanked.Content, "")
	equal(t, yanked.YankedBy, records.KeyID(alice.PublicKey()))
	equal(t, yanked.YankedTimestamp, at)
	equal(t, must(log.Latest("*")).Version, "1.1.0")
}

// A record's envelope is written anew, without what no envelope has.
func TestEnvelopesAreWrittenAnew(t *testing.T) {
	alice, bob := two()
	made := envelopes(1, alice, bob)
	strange := append(append([]byte("\x1a\x00"), made[0]...), "\x78\x01"...)
	if it := must(logOf([][]byte{strange}).Record(0)); !bytes.Equal(it.Envelope, made[0]) {
		t.Errorf("seen %x", it.Envelope)
	}
}

func TestKeysAndChains(t *testing.T) {
	alice, bob := two()
	log := logOf(envelopes(2, alice, bob))
	aliceID, bobID := records.KeyID(alice.PublicKey()), records.KeyID(bob.PublicKey())
	equal(t, must(log.PublicKey(bobID)), bob.PublicKey())
	equal(t, must(log.PublicKey("nobody")), "")
	both := []weoldrin.Permission{weoldrin.MayRelease, weoldrin.MayYank}
	if held := must(log.Permissions(aliceID)); !reflect.DeepEqual(held, both) {
		t.Errorf("seen %v", held)
	}
	if held := must(log.Permissions("nobody")); held != nil {
		t.Errorf("seen %v", held)
	}
	equal(t, must(log.Holds(bobID, weoldrin.MayRelease)), true)
	equal(t, must(log.Holds(bobID, weoldrin.MayYank)), false)
	_, err := log.Holds(bobID, weoldrin.MayCommit)
	isRefused(t, err, weoldrin.ErrBadArgument, "UnknownPermission")
	links := []weoldrin.Link{{Record: 0, Entry: 0}, {Record: 0, Entry: 1}}
	if chain := must(log.Chain(bobID, weoldrin.MayRelease)); !reflect.DeepEqual(chain, links) {
		t.Errorf("seen %v", chain)
	}
	if chain := must(log.Chain(bobID, weoldrin.MayYank)); chain != nil {
		t.Errorf("seen %v", chain)
	}
	_, err = log.Chain(bobID, "nothing")
	isRefused(t, err, weoldrin.ErrBadArgument, "UnknownPermission")
	// A key that lost all that it held is known, and holds nothing.
	lost := must(records.Revoke(weoldrin.Package, bobID, weoldrin.MayRelease))
	if err := log.AppendSigned(record(log, alice, start, lost)); err != nil {
		t.Fatal(err)
	}
	if held := must(log.Permissions(bobID)); held == nil || len(held) != 0 {
		t.Errorf("seen %v", held)
	}
}

// A chain of more links than there was room for at first.
func TestLongChains(t *testing.T) {
	keys := make([]*p256.SigningKey, 40)
	for it := range keys {
		keys[it] = must(p256.Generate())
	}
	log := must(weoldrin.NewPackageLog())
	for place, it := range keys[:39] {
		entries := []records.Entry{grant(keys[place+1])}
		if place == 0 {
			entries = []records.Entry{records.Init(it.PublicKey()), entries[0]}
		}
		if err := log.AppendSigned(record(log, it, start, entries...)); err != nil {
			t.Fatal(err)
		}
	}
	chain := must(log.Chain(records.KeyID(keys[39].PublicKey()), weoldrin.MayRelease))
	equal(t, len(chain), 40)
	equal(t, chain[39], weoldrin.Link{Record: 38, Entry: 0})
}

func operators(alice *p256.SigningKey) *weoldrin.OperatorLog {
	log := must(weoldrin.NewOperatorLog())
	imported := records.ImportNamespace("other", "registry.example.com")
	entries := []records.Entry{records.Init(alice.PublicKey()), records.DefineNamespace("own"), imported}
	if err := log.AppendSigned(record(log, alice, start, entries...)); err != nil {
		panic(err)
	}
	return log
}

func TestNamespaces(t *testing.T) {
	alice := must(p256.Generate())
	log := operators(alice)
	equal(t, log.Kind(), weoldrin.Operator)
	equal(t, *must(log.NamespaceState("own")), weoldrin.Namespace{})
	equal(t, *must(log.NamespaceState("other")), weoldrin.Namespace{Imported: true, Registry: "registry.example.com"})
	equal(t, must(log.NamespaceState("none")), nil)
	_, err := log.NamespaceState("\xff")
	isRefused(t, err, weoldrin.ErrBadArgument, "NotUtf8")
	id := records.KeyID(alice.PublicKey())
	equal(t, must(log.KeyHasPermissionToSignCheckpoints(id)), true)
	other := operators(must(p256.Generate()))
	equal(t, must(log.Compare(other)), weoldrin.Comparison{Relation: weoldrin.Fork})
	equal(t, must(must(weoldrin.OperatorLogFromJSON(must(log.ToJSON()))).Head()), must(log.Head()))
}

// permitting is a log of either kind that says what keys may do.
type permitting interface {
	appender
	Permissions(keyID string) ([]weoldrin.Permission, error)
}

// Who begins a log holds all permissions, as the rows list them, and can grant all to another.
func TestPermissions(t *testing.T) {
	listed := 0
	for _, path := range rows.Files(t, 2, "values/permissions.rows") {
		for _, block := range must(rows.Blocks(path)) {
			row := must(rows.RowOf(block.Text))
			alice, bob := two()
			switch words := strings.Fields(row.Wanted); row.Question {
			case "permissions package-permission":
				holdAll(t, must(weoldrin.NewPackageLog()), alice, bob, words[1:])
				listed++
			case "permissions operator-permission":
				holdAll(t, must(weoldrin.NewOperatorLog()), alice, bob, words[1:])
				listed++
			}
		}
	}
	equal(t, listed, 2)
}

func holdAll(t *testing.T, log permitting, alice, bob *p256.SigningKey, words []string) {
	t.Helper()
	var all []weoldrin.Permission
	for _, it := range words {
		all = append(all, weoldrin.Permission(it))
	}
	grant := must(records.Grant(log.Kind(), bob.PublicKey(), all...))
	if err := log.AppendSigned(record(log, alice, start, records.Init(alice.PublicKey()), grant)); err != nil {
		t.Fatal(err)
	}
	for _, key := range []*p256.SigningKey{alice, bob} {
		if held := must(log.Permissions(records.KeyID(key.PublicKey()))); !reflect.DeepEqual(held, all) {
			t.Errorf("%v: seen %v, wanted %v", log.Kind(), held, all)
		}
	}
}

func TestSavedStates(t *testing.T) {
	alice, bob := two()
	log := logOf(envelopes(3, alice, bob))
	resumed := must(weoldrin.PackageLogFromJSON(must(log.ToJSON())))
	equal(t, must(resumed.Head()), must(log.Head()))
	equal(t, must(resumed.ToJSON()), must(log.ToJSON()))
	calls := map[string]func() error{
		"Len":     func() error { _, err := resumed.Len(); return err },
		"Record":  func() error { _, err := resumed.Record(0); return err },
		"Chain":   func() error { _, err := resumed.Chain("x", weoldrin.MayYank); return err },
		"Compare": func() error { _, err := resumed.Compare(log); return err },
		"with":    func() error { _, err := log.Compare(resumed); return err },
		"itself":  func() error { _, err := resumed.Compare(resumed); return err },
	}
	for name, call := range calls {
		t.Run(name, func(t *testing.T) { isRefused(t, call(), weoldrin.ErrBadArgument, "Resumed") })
	}
	counted := must(weoldrin.PackageLogFromJSONCounted(must(log.ToJSON()), 3))
	equal(t, must(counted.Last()).Count, 3)
	more := release(log, bob, "9.0.0")
	for _, it := range []*weoldrin.PackageLog{log, resumed, counted} {
		if err := it.AppendSigned(more); err != nil {
			t.Fatal(err)
		}
		if err := it.AppendSigned(more); !errors.Is(err, weoldrin.ErrRefused) {
			t.Fatal(err)
		}
	}
	equal(t, must(resumed.ToJSON()), must(log.ToJSON()))
	equal(t, must(counted.ToJSON()), must(log.ToJSON()))
	equal(t, must(resumed.Last()).Count, -1)
	equal(t, must(counted.Last()).Count, 4)
	_, err := weoldrin.PackageLogFromJSONCounted("[]", 3)
	equal(t, err.(*weoldrin.Error).Name, "WrongType")
	operators := must(weoldrin.OperatorLogFromJSONCounted("{}", 7))
	equal(t, must(operators.Last()), nil)
	_, err = weoldrin.PackageLogFromJSON("[]")
	equal(t, err.(*weoldrin.Error).Name, "WrongType")
	_, err = weoldrin.OperatorLogFromJSON("{")
	equal(t, err.(*weoldrin.Error).Name, "NotJson")
	// The text of a state can't say a time before 1970.
	early := must(weoldrin.NewPackageLog())
	if err := early.AppendSigned(record(early, alice, time.Unix(-1, 0), records.Init(alice.PublicKey()))); err != nil {
		t.Fatal(err)
	}
	_, err = early.ToJSON()
	isRefused(t, err, weoldrin.ErrBadArgument, "TimeBeforeEpoch")
}

func TestComparisons(t *testing.T) {
	alice, bob := two()
	made := envelopes(4, alice, bob)
	log, other := logOf(made), logOf(made[:2])
	alone := make(chan weoldrin.Comparison, 1)
	go func() { alone <- must(log.Compare(log)) }()
	select {
	case found := <-alone:
		equal(t, found, weoldrin.Comparison{})
	case <-time.After(10 * time.Second):
		t.Fatal("it waits for itself")
	}
	equal(t, must(log.Compare(logOf(made))), weoldrin.Comparison{})
	equal(t, must(log.Compare(other)), weoldrin.Comparison{Relation: weoldrin.RightIsPrefix, Left: 2, Right: 2})
	equal(t, must(other.Compare(log)), weoldrin.Comparison{Relation: weoldrin.LeftIsPrefix, Left: 2, Right: 2})
	if err := other.AppendSigned(release(other, bob, "2.0.0")); err != nil {
		t.Fatal(err)
	}
	equal(t, must(other.Compare(log)), weoldrin.Comparison{Relation: weoldrin.Fork, Left: 2, Right: 2})
	equal(t, weoldrin.Fork.String()+weoldrin.Relation(9).String(), "forkRelation(9)")
}

// An answer is of its own question alone.
func TestAskedAndAnswered(t *testing.T) {
	alice, bob := two()
	made := envelopes(3, alice, bob)
	log := logOf(made[:1])
	question := must(log.Ask(made[1]))
	equal(t, question.Key, bob.PublicKey())
	equal(t, strings.HasPrefix(string(question.Message), "WARG-PACKAGE-RECORD-SIGNATURE-V0:"), true)
	equal(t, must(log.Len()), 1)
	isRefused(t, log.AppendAnswered(made[1], question, false), weoldrin.ErrRefused, "SignatureError")
	other := *question
	other.Message = append([]byte{}, other.Message[1:]...)
	isRefused(t, log.AppendAnswered(made[1], &other, true), weoldrin.ErrRefused, "SignatureError")
	nothing := &weoldrin.Question{Key: "no colon", Signature: "toy:"}
	isRefused(t, log.AppendAnswered(made[1], nothing, true), weoldrin.ErrBadArgument, "BadQuestion")
	equal(t, must(log.Len()), 1)
	if err := log.AppendAnswered(made[1], question, true); err != nil {
		t.Error(err)
	}
	asked := 0
	err := log.Append(made[2], func(it *weoldrin.Question) bool { asked++; return p256.Verify(it) })
	succeeds(t, err)
	equal(t, asked, 1)
	equal(t, must(log.Len()), 3)
	err = log.Append(made[2], func(*weoldrin.Question) bool { panic("asked") })
	isRefused(t, err, weoldrin.ErrRefused, "RecordHashDoesNotMatch")
}

// A record by a key of another algorithm is appended by the caller's word alone.
func TestOtherAlgorithms(t *testing.T) {
	key := "toy:YWxpY2U="
	log := must(weoldrin.NewPackageLog())
	contents := records.Contents("", start, records.Init(key))
	envelope := must(records.Signed(weoldrin.Package, contents, key, func([]byte) (string, error) { return "toy:", nil }))
	isRefused(t, log.AppendSigned(envelope), weoldrin.ErrUnknownAlgorithm, "UnknownAlgorithm")
	equal(t, must(log.Len()), 0)
	if err := log.Append(envelope, func(it *weoldrin.Question) bool { return it.Key == key }); err != nil {
		t.Error(err)
	}
	_, err := weoldrin.Verify(key, nil, "toy:")
	isRefused(t, err, weoldrin.ErrUnknownAlgorithm, "UnknownAlgorithm")
	_, err = weoldrin.Verify("no colon", nil, "toy:")
	isRefused(t, err, weoldrin.ErrBadArgument, "BadText")
	failing := errors.New("no token")
	_, err = records.Signed(weoldrin.Package, contents, key, func([]byte) (string, error) { return "", failing })
	if err != failing {
		t.Errorf("seen %v", err)
	}
}

// Each bad argument has a name and a sentence, and a log that is not open says so.
func TestWrongUses(t *testing.T) {
	log := must(weoldrin.NewPackageLog())
	for _, requirement := range []string{"one", ">=x", "\x00", "1 2", "\xff"} {
		_, err := log.Latest(requirement)
		isRefused(t, err, weoldrin.ErrBadArgument, "BadRequirement")
	}
	_, err := log.Release("1.0")
	isRefused(t, err, weoldrin.ErrBadArgument, "BadVersion")
	_, err = log.Ask([]byte("\x0b"))
	isRefused(t, err, weoldrin.ErrNoEnvelope, "ProtobufEnvelope.Group")
	isRefused(t, log.AppendSigned(nil), weoldrin.ErrNoEnvelope, "Contents.MissingTime")
	_, err = weoldrin.RecordID(weoldrin.Package, []byte("\x0b"))
	isRefused(t, err, weoldrin.ErrNoEnvelope, "ProtobufEnvelope.Group")
	_, err = weoldrin.RecordID(7, nil)
	isRefused(t, err, weoldrin.ErrBadArgument, "NoKind")
	_, err = weoldrin.KindOf("packages")
	isRefused(t, err, weoldrin.ErrBadArgument, "NoKind")
	equal(t, must(weoldrin.KindOf("operator")), weoldrin.Operator)
	equal(t, strings.Count(must(weoldrin.LibraryVersion()), "."), 2)
	never := &weoldrin.PackageLog{}
	for _, it := range []*weoldrin.PackageLog{log, never} {
		succeeds(t, it.Close())
		succeeds(t, it.Close())
		_, err := it.Head()
		isRefused(t, err, weoldrin.ErrNotOpen, "NotOpen")
		isRefused(t, it.AppendSigned(nil), weoldrin.ErrNotOpen, "NotOpen")
		_, err = it.Compare(must(weoldrin.NewPackageLog()))
		isRefused(t, err, weoldrin.ErrNotOpen, "NotOpen")
	}
	_, err = records.Grant(weoldrin.Package, "toy:", weoldrin.MayCommit)
	equal(t, err != nil, true)
}

// The text of an error that quotes a long key id finds room, and is printed on one line.
func TestLongSentences(t *testing.T) {
	alice, bob := two()
	log := logOf(envelopes(1, alice, bob))
	stranger := strings.Repeat("n", 1_000_000) + "\x1b[2J\n\u202e\\"
	contents := records.Contents(must(log.Head()), start, records.Release("9.0.0", records.SHA256Text(nil)))
	err := log.AppendSigned(records.Envelope(contents, stranger, "toy:"))
	isRefused(t, err, weoldrin.ErrRefused, "UnauthorizedAction")
	equal(t, strings.Contains(err.(*weoldrin.Error).Sentence, stranger), true)
	equal(t, strings.Contains(err.Error(), `n\u{1b}[2J\u{a}\u{202e}\\`), true)
	equal(t, strings.ContainsAny(err.Error(), "\x1b\n\u202e"), false)
}

func TestTimes(t *testing.T) {
	alice := must(p256.Generate())
	for _, seconds := range []int64{math.MinInt64, math.MinInt64 + 1, -2, -1, 0, 1, math.MaxInt64 - 1, math.MaxInt64} {
		for _, nanos := range []int64{0, 1, 500_000_000, 999_999_999} {
			at := time.Unix(seconds, nanos)
			log := must(weoldrin.NewPackageLog())
			entries := []records.Entry{records.Init(alice.PublicKey()), records.Release("1.0.0", records.SHA256Text(nil))}
			if err := log.AppendSigned(record(log, alice, at, entries...)); err != nil {
				t.Fatal(err)
			}
			latest := must(log.Latest("*"))
			equal(t, latest.Timestamp.Unix(), seconds)
			equal(t, int64(latest.Timestamp.Nanosecond()), nanos)
		}
	}
}

// One log is used by many goroutines, and many logs are, each by its own.
func TestGoroutines(t *testing.T) {
	alice, bob := two()
	made := envelopes(6, alice, bob)
	head := must(logOf(made).Head())
	shared := must(weoldrin.NewPackageLog())
	var running sync.WaitGroup
	taken := make(chan int, 64)
	for worker := 0; worker < 8; worker++ {
		running.Add(1)
		go func() {
			defer running.Done()
			own := logOf(made)
			if must(own.Head()) != head {
				t.Error("another head")
			}
			if must(own.Compare(shared)).Relation == weoldrin.Fork || must(shared.Compare(own)).Relation == weoldrin.Fork {
				t.Error("a fork")
			}
			for place, it := range made {
				if shared.AppendSigned(it) == nil {
					taken <- place
				}
			}
		}()
	}
	running.Wait()
	close(taken)
	count := 0
	for range taken {
		count++
	}
	equal(t, count, must(shared.Len()))
	equal(t, must(shared.Head()), head)
}

// Two logs are compared from both sides at once, and neither waits for the other for good.
func TestBothCompared(t *testing.T) {
	alice, bob := two()
	one, other := logOf(envelopes(2, alice, bob)), logOf(envelopes(2, alice, bob))
	done := make(chan bool, 2)
	for _, it := range [][2]*weoldrin.PackageLog{{one, other}, {other, one}} {
		go func(left, right *weoldrin.PackageLog) {
			for count := 0; count < 20_000; count++ {
				must(left.Compare(right))
			}
			done <- true
		}(it[0], it[1])
	}
	for range []int{1, 2} {
		select {
		case <-done:
		case <-time.After(60 * time.Second):
			t.Fatal("they wait for each other")
		}
	}
}
