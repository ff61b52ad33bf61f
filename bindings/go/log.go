package weoldrin

// #include "warg.h"
import "C"

import (
	"runtime"
	"strings"
	"sync"
	"sync/atomic"
	"time"
)

// Log is what logs of both kinds have. Make a PackageLog or an OperatorLog: a Log by itself is not open.
//
// It may be used by many goroutines: its calls wait for each other. It is closed by Close, or when it is forgotten.
// It is not to be copied.
type Log struct {
	// A pointer to memory of Go in here would be refused by cgo.
	lock sync.Mutex
	// By which the locks of two logs are taken in one order.
	number uint64
	kind   Kind
	raw    rawLog
}

var logs uint64

const (
	resumed       = "Resumed: the log was resumed, and its records are elsewhere"
	badQuestion   = "BadQuestion: the parts are those of no question"
	badPermission = "UnknownPermission: logs of this kind have no such permission"
)

// open begins a log of a kind, which has no records.
func (l *Log) open(kind Kind) error {
	l.kind, l.number = kind, atomic.AddUint64(&logs, 1)
	_, err := done(C.warg_open(&l.raw, C.uint32_t(kind)), "")
	return err
}

// resume opens a log that goes on from a saved state, and had so many records then; a negative count is not known.
func (l *Log) resume(kind Kind, saved string, count int) error {
	l.kind, l.number = kind, atomic.AddUint64(&logs, 1)
	text := []byte(saved)
	_, _, err := l.said(0, "", func(to []byte, used *rawSize) rawStatus {
		if count < 0 {
			return C.warg_resume(&l.raw, C.uint32_t(kind), at(text), size(text), at(to), size(to), used)
		}
		return C.warg_resume_counted(
			&l.raw, C.uint32_t(kind), at(text), size(text), rawSize(count), at(to), size(to), used)
	})
	return err
}

// said is what a call of the library writes, made while no other call of the log is.
func (l *Log) said(room int, misuse string, call func(to []byte, used *rawSize) rawStatus) ([]byte, bool, error) {
	l.lock.Lock()
	defer l.lock.Unlock()
	return filled(room, misuse, call)
}

// text is the text that a call of the library writes; it is empty where there is none.
func (l *Log) text(call func(to []byte, used *rawSize) rawStatus) (string, error) {
	text, _, err := l.said(0, "", call)
	return string(text), err
}

// Close gives the log's memory back. Closing twice is harmless; any other call returns ErrNotOpen then. It never fails.
func (l *Log) Close() error {
	l.lock.Lock()
	defer l.lock.Unlock()
	C.warg_close(&l.raw)
	return nil
}

// Kind is the kind of the log.
func (l *Log) Kind() Kind {
	return l.kind
}

// Ask is what has to be verified before the envelope's record can be appended. It changes nothing. The record is lawful
// exactly if the signature belongs; the error is ErrRefused where no signature could help.
func (l *Log) Ask(envelope []byte) (*Question, error) {
	var asked rawAsked
	text, _, err := l.said(len(envelope)+sentence, "", func(to []byte, used *rawSize) rawStatus {
		return C.warg_ask(&l.raw, at(envelope), size(envelope), at(to), size(to), used, &asked)
	})
	if err != nil {
		return nil, err
	}
	key, message := int(asked.key_len), int(asked.message_len)
	end := key + message
	return &Question{Key: string(text[:key]), Message: text[key:end:end], Signature: string(text[end:])}, nil
}

// AppendAnswered appends the envelope's record by the answer to its question. The answer to any other question is
// refused.
func (l *Log) AppendAnswered(envelope []byte, question *Question, belongs bool) error {
	parts := []byte(question.Key + string(question.Message) + question.Signature)
	asked := rawAsked{
		key_len:       rawSize(len(question.Key)),
		message_len:   rawSize(len(question.Message)),
		signature_len: rawSize(len(question.Signature)),
	}
	_, _, err := l.said(len(envelope)+sentence, badQuestion, func(to []byte, used *rawSize) rawStatus {
		return C.warg_append(
			&l.raw, at(envelope), size(envelope), at(parts), size(parts), &asked, C.bool(belongs), at(to), size(to), used)
	})
	return err
}

// AppendSigned appends the envelope's record if its signature belongs, which the library verifies: ECDSA P-256. Where
// all of a record is lawful but its signature, and that is by a key of another algorithm, the error is
// ErrUnknownAlgorithm: use Append then.
func (l *Log) AppendSigned(envelope []byte) error {
	_, _, err := l.said(len(envelope)+sentence, "", func(to []byte, used *rawSize) rawStatus {
		return C.warg_append_signed(&l.raw, at(envelope), size(envelope), at(to), size(to), used)
	})
	return err
}

// Append appends the envelope's record if its signature belongs, as verify says, which is asked once at most. The log
// may be used by others while verify runs. If the record is no longer the next one then, it is refused.
func (l *Log) Append(envelope []byte, verify func(*Question) bool) error {
	question, err := l.Ask(envelope)
	if err != nil {
		return err
	}
	return l.AppendAnswered(envelope, question, verify(question))
}

// Head is the id of the last record. It is empty before any.
func (l *Log) Head() (string, error) {
	return l.text(func(to []byte, used *rawSize) rawStatus {
		return C.warg_head(&l.raw, at(to), size(to), used)
	})
}

// Last is the time and the version of the last record, and how many records there are; nil before any.
func (l *Log) Last() (*Last, error) {
	l.lock.Lock()
	defer l.lock.Unlock()
	var head C.struct_warg_head
	if found, err := done(C.warg_head_of(&l.raw, &head), ""); !found {
		return nil, err
	}
	last := &Last{Timestamp: time.Unix(int64(head.seconds), int64(head.nanos)).UTC(), Version: uint32(head.version), Count: -1}
	if head.is_counted != 0 {
		last.Count = int(head.count)
	}
	return last, nil
}

// Len is how many records there are. The error is ErrBadArgument for a resumed log.
func (l *Log) Len() (int, error) {
	l.lock.Lock()
	defer l.lock.Unlock()
	var length rawSize
	_, err := done(C.warg_length(&l.raw, &length), resumed)
	return int(length), err
}

// Record is the record at a place, from 0; nil if the log has none there. The error is ErrBadArgument for a resumed
// log.
func (l *Log) Record(place int) (*Record, error) {
	if place < 0 {
		return nil, errorNamed(ErrBadArgument, "OutOfRange: places are counted from 0")
	}
	var kept C.struct_warg_kept
	text, found, err := l.said(0, resumed, func(to []byte, used *rawSize) rawStatus {
		return C.warg_record(&l.raw, rawSize(place), at(to), size(to), used, &kept)
	})
	if !found {
		return nil, err
	}
	end := int(kept.envelope_len)
	return &Record{Envelope: text[:end:end], ID: string(text[end:])}, nil
}

// Records are the records in order.
func (l *Log) Records() ([]*Record, error) {
	return inOrder(l.Record)
}

// inOrder is what stands at each place from 0 on, until there is none.
func inOrder[T any](at func(place int) (*T, error)) ([]*T, error) {
	var all []*T
	for {
		it, err := at(len(all))
		if err != nil {
			return nil, err
		}
		if it == nil {
			return all, nil
		}
		all = append(all, it)
	}
}

// Holds is whether a key id holds a permission. The error is ErrBadArgument where logs of this kind have no such
// permission.
func (l *Log) Holds(keyID string, permission Permission) (bool, error) {
	l.lock.Lock()
	defer l.lock.Unlock()
	id, name := []byte(keyID), []byte(permission)
	return done(C.warg_holds(&l.raw, at(id), size(id), at(name), size(name)), badPermission)
}

// Permissions are those that a key id holds; nil if no record spoke of it.
func (l *Log) Permissions(keyID string) ([]Permission, error) {
	id := []byte(keyID)
	text, found, err := l.said(0, "", func(to []byte, used *rawSize) rawStatus {
		return C.warg_permissions(&l.raw, at(id), size(id), at(to), size(to), used)
	})
	if !found {
		return nil, err
	}
	held := []Permission{}
	for _, it := range strings.Fields(string(text)) {
		held = append(held, Permission(it))
	}
	return held, nil
}

// PublicKey is the text of the key of a key id. It is empty if the log does not know it.
func (l *Log) PublicKey(keyID string) (string, error) {
	id := []byte(keyID)
	return l.text(func(to []byte, used *rawSize) rawStatus {
		return C.warg_key(&l.raw, at(id), size(id), at(to), size(to), used)
	})
}

// Chain are the entries by which a key id came to hold a permission, from the log's first entry on; nil if it does not
// hold it. The error is ErrBadArgument for a resumed log, and where logs of this kind have no such permission.
func (l *Log) Chain(keyID string, permission Permission) ([]Link, error) {
	if _, err := l.Holds(keyID, permission); err != nil {
		return nil, err
	}
	l.lock.Lock()
	defer l.lock.Unlock()
	id, name := []byte(keyID), []byte(permission)
	links := make([]C.struct_warg_link, 16)
	for {
		var used rawSize
		status := C.warg_chain(
			&l.raw, at(id), size(id), at(name), size(name), &links[0], rawSize(len(links)), &used)
		if uint32(status) == tooSmall {
			links = make([]C.struct_warg_link, used)
			continue
		}
		if found, err := done(status, resumed); !found {
			return nil, err
		}
		chain := make([]Link, used)
		for place, it := range links[:used] {
			chain[place] = Link{Record: int(it.record_index), Entry: int(it.entry_index)}
		}
		return chain, nil
	}
}

// ToJSON is the state as a text of JSON: all that further records are judged by and that is looked up, but no records.
// The error is ErrBadArgument, by the name TimeBeforeEpoch, where a time of the state lies before 1970, which its text
// can't say.
func (l *Log) ToJSON() (string, error) {
	text, found, err := l.said(0, "", func(to []byte, used *rawSize) rawStatus {
		return C.warg_save(&l.raw, at(to), size(to), used)
	})
	if err == nil && !found {
		return "", errorNamed(ErrBadArgument, "TimeBeforeEpoch: a time of the state lies before 1970")
	}
	return string(text), err
}

// compare compares the records of this log, the left one, with those of another.
func (l *Log) compare(other *Log) (Comparison, error) {
	if l == other {
		_, err := l.Len()
		return Comparison{}, err
	}
	first, second := l, other
	if other.number < l.number {
		first, second = other, l
	}
	first.lock.Lock()
	defer first.lock.Unlock()
	second.lock.Lock()
	defer second.lock.Unlock()
	var found C.struct_warg_comparison
	if _, err := done(C.warg_compare(&l.raw, &other.raw, &found), resumed); err != nil {
		return Comparison{}, err
	}
	// The first field is named `is` in C.
	return Comparison{Relation: Relation(found.is), Left: int(found.left), Right: int(found.right)}, nil
}

// forgotten closes a log that nobody can use any more, and counts it.
func forgotten[T interface{ Close() error }](log T) {
	runtime.SetFinalizer(log, func(it T) {
		_ = it.Close()
		atomic.AddUint64(&forgottenLogs, 1)
	})
}

var forgottenLogs uint64
