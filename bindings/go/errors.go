package weoldrin

import (
	"errors"
	"strings"
)

// Why a call did nothing: what errors.Is tells of an *Error.
var (
	// ErrNotOpen is of a log, or of trees of a registry, that were closed, or that no function of this package made.
	ErrNotOpen = errors.New("the log is not open")
	// ErrOutOfMemory is of a library that found no memory. The same call may be made again.
	ErrOutOfMemory = errors.New("there was no memory")
	// ErrNoEnvelope is of bytes that are no envelope of a record of the log's kind.
	ErrNoEnvelope = errors.New("the bytes are no envelope")
	// ErrRefused is of a record that is unlawful, or whose signature does not belong.
	ErrRefused = errors.New("the record is refused")
	// ErrBadArgument is of an argument that is not of its form, and of a log that has no such call: it is of the other
	// kind, or it was resumed and has no records.
	ErrBadArgument = errors.New("an argument is not of its form")
	// ErrUnknownAlgorithm is of a key of another algorithm than the library verifies.
	ErrUnknownAlgorithm = errors.New("the key is of another algorithm")
)

// Error says why a call did nothing. The log, or the trees of a registry, are as they were. Name and Sentence are the
// library's own: they quote what strangers wrote, such as key ids, to the letter. The text of the error is both, as
// they can be printed, on one line.
type Error struct {
	// Name is the error's name, as SignatureError or ProtobufEnvelope.Truncated.
	Name string
	// Sentence says what it means. It is empty where the name alone is known.
	Sentence string

	why error
}

// Error is the name and the sentence on one line, whatever strangers wrote.
func (e *Error) Error() string {
	if e.Sentence == "" {
		return Printable(e.Name)
	}
	return Printable(e.Name + ": " + e.Sentence)
}

// Unwrap is one of the errors of this package, such as ErrRefused, by which errors.Is tells them apart.
func (e *Error) Unwrap() error {
	return e.why
}

// What is said of a status where the library says no more.
var statuses = map[uint32]struct {
	why  error
	text string
}{
	notOpen:          {ErrNotOpen, "NotOpen: the log was closed, or was never opened"},
	outOfMemory:      {ErrOutOfMemory, "OutOfMemory: there was no memory"},
	noEnvelope:       {ErrNoEnvelope, "NoEnvelope: the bytes are no envelope of a record of the log's kind"},
	refused:          {ErrRefused, "Refused: the record is unlawful, or its signature does not belong"},
	badArgument:      {ErrBadArgument, "BadArgument: an argument is not of its form, or the log has no such call"},
	unknownAlgorithm: {ErrUnknownAlgorithm, unknown},
}

const unknown = "UnknownAlgorithm: the library verifies keys of ecdsa-p256 alone; verify the signature by other " +
	"means, and append a record by Ask and AppendAnswered, or by Append"

// errorOf is the error of a status that is neither 0 nor "too small" nor "none", with the library's text, or this one
// of a bad argument where the library has none.
func errorOf(status uint32, text, misuse string) error {
	found, known := statuses[status]
	if !known {
		found.why, found.text = ErrBadArgument, "Strange: the library answered by a status that is not known here"
	}
	if text == "" && status == badArgument {
		text = misuse
	}
	if text == "" {
		text = found.text
	}
	return errorNamed(found.why, text)
}

// errorNamed is an error with a text of a name, a colon, a space and a sentence.
func errorNamed(why error, text string) error {
	name, sentence, _ := strings.Cut(text, ": ")
	return &Error{Name: name, Sentence: sentence, why: why}
}
