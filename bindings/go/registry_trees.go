package weoldrin

// #include "warg.h"
import "C"

import (
	"runtime"
	"sync"
)

// RegistryTrees are the trees of a registry, for who keeps one: the log of all leaves, and the map of the heads of
// logs. Make them by NewRegistryTrees or RegistryTreesFromBytes: RegistryTrees by themselves are not open. Each proof is one that
// VerifyInclusion, VerifyConsistency, VerifyPresence or VerifyAbsence takes under the Checkpoint of the moment. Whether
// a record may come next is for its own log to say: push what a PackageLog or an OperatorLog has taken.
//
// They may be used by many goroutines: their calls wait for each other. The library wants all calls of them on one
// thread, so they have a goroutine that keeps a thread to itself; other trees have another. They are closed by Close,
// or when they are forgotten. They are not to be copied. At each error they are as they were.
type RegistryTrees struct {
	lock sync.Mutex
	// Leads to the goroutine that makes the calls; nil where the trees are not open.
	calls chan<- func(*rawRegistry)
}

const (
	badID       = "BadText: an id is not the text of one"
	badLength   = "BadLength: the bytes are no multiple of 64"
	closedTrees = "NotOpen: the trees were closed, or were never opened"
)

// NewRegistryTrees are the trees of no leaves.
func NewRegistryTrees() (*RegistryTrees, error) {
	return newTrees("", func(raw *rawRegistry) rawStatus { return C.warg_registry_open(raw) })
}

// RegistryTreesFromBytes are the trees of the leaves that ToBytes gave, or of the first of them, made anew. This costs
// less than to push them, since the map is made of the last record of each log alone. The error is ErrBadArgument, by
// the name BadLength, where the bytes are no multiple of 64.
func RegistryTreesFromBytes(saved []byte) (*RegistryTrees, error) {
	return newTrees(badLength, func(raw *rawRegistry) rawStatus {
		return C.warg_registry_resume(raw, at(saved), size(saved))
	})
}

// newTrees are trees that a call begins, with what is said of a bad argument.
func newTrees(misuse string, begin func(raw *rawRegistry) rawStatus) (*RegistryTrees, error) {
	calls := make(chan func(*rawRegistry))
	go serve(calls)
	trees := &RegistryTrees{calls: calls}
	err := trees.together(func(raw *rawRegistry) error {
		_, err := done(begin(raw), misuse)
		return err
	})
	if err != nil {
		_ = trees.Close()
		return nil, err
	}
	forgotten(trees)
	return trees, nil
}

// serve makes the calls of trees, all of them on one thread, until there are no more. The last one closes them. The
// trees that send them are not known here, so that they can be forgotten.
func serve(calls <-chan func(*rawRegistry)) {
	runtime.LockOSThread()
	defer runtime.UnlockOSThread()
	var raw rawRegistry
	for call := range calls {
		call(&raw)
	}
}

// Close gives the trees' memory back, and their thread. Closing twice is harmless; any other call returns ErrNotOpen
// then. It never fails.
func (t *RegistryTrees) Close() error {
	t.lock.Lock()
	defer t.lock.Unlock()
	if t.calls == nil {
		return nil
	}
	_ = t.made(func(raw *rawRegistry) error {
		C.warg_registry_close(raw)
		return nil
	})
	close(t.calls)
	t.calls = nil
	return nil
}

// Push puts the leaf of a record of a log last onto the log of all leaves, and makes the record the head of its log. It
// gives the leaf's place, from 0. The error is ErrBadArgument where an id is not the text of one.
func (t *RegistryTrees) Push(logID, recordID string) (uint64, error) {
	log, record := []byte(logID), []byte(recordID)
	var place C.uint64_t
	err := t.done(func(raw *rawRegistry) rawStatus {
		return C.warg_registry_push(raw, at(log), size(log), at(record), size(record), &place)
	})
	return uint64(place), err
}

// ToBytes are the leaves, as RegistryTreesFromBytes takes them: 64 bytes for each, in the order in which they were
// pushed, the 32 of its log's id and the 32 of its record's. So who keeps them may as well append 64 bytes for each leaf
// that is pushed.
func (t *RegistryTrees) ToBytes() (saved []byte, err error) {
	err = t.together(func(raw *rawRegistry) (err error) {
		var length C.uint64_t
		if _, err = done(C.warg_registry_length(raw, &length), ""); err == nil {
			saved, _, err = filled(64*int(length), "", func(to []byte, used *rawSize) rawStatus {
				return C.warg_registry_save(raw, at(to), size(to), used)
			})
		}
		return err
	})
	return saved, err
}

// Len is how many leaves there are.
func (t *RegistryTrees) Len() (uint64, error) {
	var length C.uint64_t
	err := t.done(func(raw *rawRegistry) rawStatus { return C.warg_registry_length(raw, &length) })
	return uint64(length), err
}

// Checkpoint is what a registry signs at this time, in whole seconds since 1970: the roots of both trees, and how many
// leaves there are.
func (t *RegistryTrees) Checkpoint(timestamp uint64) (Checkpoint, error) {
	now := Checkpoint{Timestamp: timestamp}
	// The roots and the length are of one moment.
	err := t.together(func(raw *rawRegistry) error {
		var lengths C.struct_warg_roots
		text, _, err := filled(0, "", func(to []byte, used *rawSize) rawStatus {
			return C.warg_registry_roots(raw, at(to), size(to), used, &lengths)
		})
		if err != nil {
			return err
		}
		end := int(lengths.log_root_len)
		now.LogRoot, now.MapRoot = string(text[:end]), string(text[end:])
		var length C.uint64_t
		_, err = done(C.warg_registry_length(raw, &length), "")
		now.LogLength = uint64(length)
		return err
	})
	if err != nil {
		return Checkpoint{}, err
	}
	return now, nil
}

// Inclusion is the proof that the leaf at a place is in the log of all leaves, as VerifyInclusion takes it, and whether
// there is a leaf at this place. The proof of the only leaf is the empty text.
func (t *RegistryTrees) Inclusion(place uint64) (proof string, found bool, err error) {
	return t.text("", func(raw *rawRegistry, to []byte, used *rawSize) rawStatus {
		return C.warg_registry_inclusion(raw, C.uint64_t(place), at(to), size(to), used)
	})
}

// Consistency is the proof that the log of all leaves begins with the one of its first leaves, as VerifyConsistency
// takes it, and whether there are that many. The proof from none of them, and from all, is the empty text.
func (t *RegistryTrees) Consistency(firstLength uint64) (proof string, found bool, err error) {
	return t.text("", func(raw *rawRegistry, to []byte, used *rawSize) rawStatus {
		return C.warg_registry_consistency(raw, C.uint64_t(firstLength), at(to), size(to), used)
	})
}

// Head is the last record of a log among the leaves, and the proof of it. The error is ErrBadArgument where the id is
// not the text of one.
func (t *RegistryTrees) Head(logID string) (Head, error) {
	log := []byte(logID)
	var lengths C.struct_warg_log_head
	text, _, err := t.text(badID, func(raw *rawRegistry, to []byte, used *rawSize) rawStatus {
		return C.warg_registry_head(raw, at(log), size(log), at(to), size(to), used, &lengths)
	})
	if err != nil {
		return Head{}, err
	}
	end := int(lengths.record_id_len)
	return Head{RecordID: text[:end], Proof: text[end:]}, nil
}

// made makes calls on the thread of the trees and waits for them, while no other call of the trees is made.
func (t *RegistryTrees) made(calls func(raw *rawRegistry) error) error {
	answers := make(chan error)
	t.calls <- func(raw *rawRegistry) { answers <- calls(raw) }
	return <-answers
}

// together makes calls between which none of another goroutine is made.
func (t *RegistryTrees) together(calls func(raw *rawRegistry) error) error {
	t.lock.Lock()
	defer t.lock.Unlock()
	if t.calls == nil {
		return errorNamed(ErrNotOpen, closedTrees)
	}
	return t.made(calls)
}

// done makes a call that writes no text.
func (t *RegistryTrees) done(call func(raw *rawRegistry) rawStatus) error {
	return t.together(func(raw *rawRegistry) error {
		_, err := done(call(raw), badID)
		return err
	})
}

// text is the text that a call writes, and whether there is one.
func (t *RegistryTrees) text(
	misuse string,
	call func(raw *rawRegistry, to []byte, used *rawSize) rawStatus,
) (text string, found bool, err error) {
	err = t.together(func(raw *rawRegistry) (err error) {
		var written []byte
		written, found, err = filled(0, misuse, func(to []byte, used *rawSize) rawStatus { return call(raw, to, used) })
		text = string(written)
		return err
	})
	return text, found, err
}
