package weoldrin

// The library's calls, as warg.h declares them, and what is owed to each:
//
//   - Each pointer leads to as many initialised bytes, or links, as the length behind it says, and is not null.
//   - What a call writes to overlaps nothing else that it has.
//   - A log is all zeros, or as the last call left it, and serves one call at a time: Log holds its lock.
//   - The same holds of a registry, and it stays on one thread: RegistryTrees make all its calls there.
//
// All of it is memory of Go that has no pointers to others, and that the library forgets when the call returns.

// #include "warg.h"
import "C"

import (
	"unsafe"
)

const (
	ok               = uint32(C.WARG_OK)
	notOpen          = uint32(C.WARG_NOT_OPEN)
	outOfMemory      = uint32(C.WARG_OUT_OF_MEMORY)
	tooSmall         = uint32(C.WARG_TOO_SMALL)
	noEnvelope       = uint32(C.WARG_NO_ENVELOPE)
	refused          = uint32(C.WARG_REFUSED)
	none             = uint32(C.WARG_NONE)
	badArgument      = uint32(C.WARG_BAD_ARGUMENT)
	unknownAlgorithm = uint32(C.WARG_UNKNOWN_ALGORITHM)
)

const (
	logTree = C.WARG_LOG_TREE
	mapTree = C.WARG_MAP_TREE
)

// The text of an error has so many bytes beside what it quotes of an envelope, and fewer.
const sentence = 1024

type (
	rawLog      = C.struct_warg_log
	rawRegistry = C.struct_warg_registry
	rawAsked    = C.struct_warg_asked
	rawByte     = C.uint8_t
	rawSize     = C.size_t
	rawStatus   = C.uint32_t
)

// nothing is where a pointer leads that leads to no bytes: none is null.
var nothing [1]byte

// at is a pointer to bytes, whose number is size.
func at(data []byte) *rawByte {
	if len(data) == 0 {
		return (*rawByte)(unsafe.Pointer(&nothing[0]))
	}
	return (*rawByte)(unsafe.Pointer(&data[0]))
}

func size(data []byte) rawSize {
	return rawSize(len(data))
}

// filled is what a call writes to a buffer of so many bytes at first, which grows as the call asks, and whether it
// wrote something, where it might say that there is none. The text of an error has to find room at first.
func filled(room int, misuse string, call func(to []byte, used *rawSize) rawStatus) ([]byte, bool, error) {
	if room < sentence {
		room = sentence
	}
	to := make([]byte, room)
	for {
		var used rawSize
		switch status := uint32(call(to, &used)); status {
		case ok:
			return to[:used:used], true, nil
		case none:
			return nil, false, nil
		case tooSmall:
			to = make([]byte, used)
		default:
			return nil, false, errorOf(status, string(to[:used]), misuse)
		}
	}
}

// done is whether a call that writes no text was done, and not answered by "none".
func done(status rawStatus, misuse string) (bool, error) {
	switch status := uint32(status); status {
	case ok:
		return true, nil
	case none:
		return false, nil
	default:
		return false, errorOf(status, "", misuse)
	}
}

// LibraryVersion is the version of the library that is linked.
func LibraryVersion() (string, error) {
	text, _, err := filled(0, "", func(to []byte, used *rawSize) rawStatus {
		return C.warg_version(at(to), size(to), used)
	})
	return string(text), err
}

// LogID is the text of the id of a log, which is made of its kind and its name: a package's log has the package's, as
// example:math, and the log of operators has none, which is the empty text. The error is ErrBadArgument, by the name
// BadName, for any other name.
func LogID(kind Kind, name string) (string, error) {
	given := []byte(name)
	text, _, err := filled(0, "", func(to []byte, used *rawSize) rawStatus {
		return C.warg_log_id(C.uint32_t(kind), at(given), size(given), at(to), size(to), used)
	})
	return string(text), err
}

// RecordID is the text of the id of an envelope's record. The record need not be lawful.
func RecordID(kind Kind, envelope []byte) (string, error) {
	text, _, err := filled(len(envelope)+sentence, "", func(to []byte, used *rawSize) rawStatus {
		return C.warg_id(C.uint32_t(kind), at(envelope), size(envelope), at(to), size(to), used)
	})
	return string(text), err
}

// Verify is whether the signature belongs to the message under the key, by their texts, as they stand in questions. The
// error is ErrBadArgument where the key's text can't be read, ErrUnknownAlgorithm where its algorithm is not
// ecdsa-p256, and otherwise ErrBadArgument where the signature's text can't be read.
func Verify(key string, message []byte, signature string) (bool, error) {
	keyText, signatureText := []byte(key), []byte(signature)
	status := C.warg_verify(at(keyText), size(keyText), at(message), size(message), at(signatureText), size(signatureText))
	return holds(status, "BadText: the text of the key or of the signature can't be read")
}

// holds is the answer of a call that refuses what does not hold.
func holds(status rawStatus, misuse string) (bool, error) {
	if uint32(status) == refused {
		return false, nil
	}
	return done(status, misuse)
}
