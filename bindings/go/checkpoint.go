package weoldrin

// #include "warg.h"
import "C"

import (
	"encoding/json"
)

const (
	badRoot      = "BadText: a root is not the text of one"
	badSignature = "BadText: a root is not the text of one, or the key's id or the signature can't be read"
)

// Checkpoint is what a registry signs of its log and its map.
type Checkpoint struct {
	// LogRoot is the text of the root of the registry's log.
	LogRoot string `json:"logRoot"`
	// LogLength is how many leaves that log has.
	LogLength uint64 `json:"logLength"`
	// MapRoot is the text of the root of the registry's map.
	MapRoot string `json:"mapRoot"`
	// Timestamp is the time in whole seconds since 1970.
	Timestamp uint64 `json:"timestamp"`
}

// SignedCheckpoint is a checkpoint with the texts by which it is signed. Whether they belong to it, VerifyCheckpoint of
// an OperatorLog says.
type SignedCheckpoint struct {
	Contents  Checkpoint `json:"contents"`
	KeyID     string     `json:"keyId"`
	Signature string     `json:"signature"`
}

// Message is the message that a key of the registry signs. The error is ErrBadArgument where a root is not the text of
// one.
func (c Checkpoint) Message() ([]byte, error) {
	logRoot, mapRoot := []byte(c.LogRoot), []byte(c.MapRoot)
	message, _, err := filled(0, badRoot, func(to []byte, used *rawSize) rawStatus {
		return C.warg_checkpoint_message(C.uint64_t(c.LogLength), at(logRoot), size(logRoot), at(mapRoot), size(mapRoot),
			C.uint64_t(c.Timestamp), at(to), size(to), used)
	})
	return message, err
}

// VerifyCheckpoint is whether a checkpoint is signed by a key that the log lets sign: one that MayCommit. The error is
// ErrBadArgument where a root is not the text of one, where the key's id is not UTF-8, and where the key may sign and
// the signature's text can't be read. It is ErrUnknownAlgorithm where the key may sign and its algorithm is not
// ecdsa-p256: verify the signature of the checkpoint's Message by other means then.
func (l *OperatorLog) VerifyCheckpoint(checkpoint Checkpoint, keyID, signature string) (bool, error) {
	l.lock.Lock()
	defer l.lock.Unlock()
	logRoot, mapRoot := []byte(checkpoint.LogRoot), []byte(checkpoint.MapRoot)
	id, text := []byte(keyID), []byte(signature)
	status := C.warg_verify_checkpoint(&l.raw, C.uint64_t(checkpoint.LogLength), at(logRoot), size(logRoot),
		at(mapRoot), size(mapRoot), C.uint64_t(checkpoint.Timestamp), at(id), size(id), at(text), size(text))
	return holds(status, badSignature)
}

// UnmarshalJSON reads the members that docs/FORMATS.md names, each of which has to be there. The error is
// ErrBadArgument, by the name Missing or WrongType. What the texts are worth, the calls say that take them.
func (c *Checkpoint) UnmarshalJSON(text []byte) error {
	var read Checkpoint
	err := readMembers(text, []member{
		{"logRoot", &read.LogRoot}, {"logLength", &read.LogLength}, {"mapRoot", &read.MapRoot},
		{"timestamp", &read.Timestamp},
	})
	if err == nil {
		*c = read
	}
	return err
}

// UnmarshalJSON reads the members, as that of a Checkpoint does.
func (s *SignedCheckpoint) UnmarshalJSON(text []byte) error {
	var read SignedCheckpoint
	err := readMembers(text, []member{
		{"contents", &read.Contents}, {"keyId", &read.KeyID}, {"signature", &read.Signature},
	})
	if err == nil {
		*s = read
	}
	return err
}

// member is a member of an object, and where its value goes.
type member struct {
	name string
	to   any
}

// readMembers reads members of an object, whose names are taken to the letter.
func readMembers(text []byte, wanted []member) error {
	var members map[string]json.RawMessage
	if err := json.Unmarshal(text, &members); err != nil || members == nil {
		return errorNamed(ErrBadArgument, "WrongType: it is no object")
	}
	for _, it := range wanted {
		value, found := members[it.name]
		if !found {
			return errorNamed(ErrBadArgument, "Missing: there is no "+it.name)
		}
		err := json.Unmarshal(value, it.to)
		if _, told := err.(*Error); told {
			return err
		}
		if err != nil || string(value) == "null" {
			return errorNamed(ErrBadArgument, "WrongType: "+it.name+" is of another type")
		}
	}
	return nil
}
