package weoldrin

import (
	"errors"
	"testing"
)

// No pointer that the library gets is null, and each leads to the bytes.
func TestPointers(t *testing.T) {
	for _, data := range [][]byte{nil, {}, {7}} {
		if at(data) == nil {
			t.Errorf("the pointer to %v is null", data)
		}
	}
	if data := []byte{7, 8}; *at(data[1:]) != 8 || size(data) != 2 {
		t.Error("the pointer leads elsewhere")
	}
}

// Each status is told by an error of its own, with the library's text where there is one.
func TestStatuses(t *testing.T) {
	for status, it := range map[uint32]struct {
		why  error
		name string
	}{
		notOpen:          {ErrNotOpen, "NotOpen"},
		outOfMemory:      {ErrOutOfMemory, "OutOfMemory"},
		noEnvelope:       {ErrNoEnvelope, "NoEnvelope"},
		refused:          {ErrRefused, "Refused"},
		badArgument:      {ErrBadArgument, "Misuse"},
		unknownAlgorithm: {ErrUnknownAlgorithm, "UnknownAlgorithm"},
		99:               {ErrBadArgument, "Strange"},
	} {
		for text, name := range map[string]string{"": it.name, "Own: a sentence": "Own"} {
			err := errorOf(status, text, "Misuse: another sentence")
			var told *Error
			if !errors.As(err, &told) || !errors.Is(err, it.why) || told.Name != name || told.Sentence == "" {
				t.Errorf("status %d with the text %q is told by %v", status, text, err)
			}
		}
	}
	var told *Error
	if err := errorOf(badArgument, "", ""); !errors.As(err, &told) || told.Name != "BadArgument" {
		t.Error(err)
	}
}
