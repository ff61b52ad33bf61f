package weoldrin_test

import (
	"errors"
	"testing"
	"time"

	"weoldrin.example/weoldrin"
	"weoldrin.example/weoldrin/p256"
	"weoldrin.example/weoldrin/records"
)

var start = time.Unix(1_700_000_000, 5).UTC()

// must is what a call gives that has to succeed.
func must[T any](it T, err error) T {
	if err != nil {
		panic(err)
	}
	return it
}

// appender is a log of either kind.
type appender interface {
	Head() (string, error)
	Kind() weoldrin.Kind
	AppendSigned(envelope []byte) error
}

// record is the envelope of a record that goes on from a log, signed by a key.
func record(log appender, signer *p256.SigningKey, at time.Time, entries ...records.Entry) []byte {
	contents := records.Contents(must(log.Head()), at, entries...)
	return must(records.Signed(log.Kind(), contents, signer.PublicKey(), signer.Sign))
}

// grant is an entry that lets a key release.
func grant(key *p256.SigningKey) records.Entry {
	return must(records.Grant(weoldrin.Package, key.PublicKey(), weoldrin.MayRelease))
}

// beginning is the first record of a package's log: alice begins it and lets bob release.
func beginning(log appender, alice, bob *p256.SigningKey) []byte {
	return record(log, alice, start, records.Init(alice.PublicKey()), grant(bob))
}

// release is a release by bob.
func release(log appender, bob *p256.SigningKey, version string) []byte {
	return record(log, bob, start, records.Release(version, records.SHA256Text([]byte(version))))
}

// envelopes are those of a package's log of so many records.
func envelopes(count int, alice, bob *p256.SigningKey) [][]byte {
	log := must(weoldrin.NewPackageLog())
	defer log.Close()
	made := [][]byte{beginning(log, alice, bob)}
	for place := 1; ; place++ {
		if err := log.AppendSigned(made[place-1]); err != nil {
			panic(err)
		}
		if place == count {
			return made
		}
		made = append(made, release(log, bob, "1."+string(rune('0'+place))+".0"))
	}
}

// logOf is the log that envelopes add up to.
func logOf(envelopes [][]byte) *weoldrin.PackageLog {
	log := must(weoldrin.NewPackageLog())
	for _, it := range envelopes {
		if err := log.AppendSigned(it); err != nil {
			panic(err)
		}
	}
	return log
}

// equal fails a test where two values differ.
func equal[T comparable](t *testing.T, seen, wanted T) {
	t.Helper()
	if seen != wanted {
		t.Errorf("seen %v, wanted %v", seen, wanted)
	}
}

// succeeds fails a test where there is an error.
func succeeds(t *testing.T, err error) {
	t.Helper()
	if err != nil {
		t.Errorf("seen %v", err)
	}
}

// isRefused fails a test where an error is none of this sort, name and a sentence.
func isRefused(t *testing.T, err, why error, name string) {
	t.Helper()
	var told *weoldrin.Error
	if !errors.Is(err, why) || !errors.As(err, &told) || told.Name != name || told.Sentence == "" {
		t.Errorf("seen %v, wanted %v: %s", err, why, name)
	}
}
