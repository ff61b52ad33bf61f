package weoldrin

import (
	"bytes"
	"encoding/hex"
	"errors"
	"fmt"
	"io"
	"io/fs"
	"os"
	"runtime"
	"sync"
)

// Refusal is the first record of a log that is refused.
type Refusal struct {
	// Place is that of the record in the log, from 0.
	Place int
	// Name is the error's name, and Sentence what it means, to the letter.
	Name     string
	Sentence string
}

// String is a line, as it is printed, whatever stands in the record.
func (r *Refusal) String() string {
	return Printable(fmt.Sprintf("refused %d %s: %s", r.Place, r.Name, r.Sentence))
}

// The names of what may be wrong with a file.
const (
	// Missing is of a file that is not there.
	Missing = "Missing"
	// Unreadable is of a file that could not be read: it is a folder, it is closed to the reader, or a read failed.
	Unreadable = "Unreadable"
	// BadLine is of a line that is no even number of hex digits.
	BadLine = "BadLine"
	// Empty is of a log of no records, as a download that failed leaves it.
	Empty = "Empty"
)

// Fault is what is wrong with a file, so that its audit is no yes.
type Fault struct {
	// Name is one of Missing, Unreadable, BadLine and Empty.
	Name string
	// Line is the place of a bad line among the lines that stand for records, from 0, as the tool counts them.
	Line int
	// Number is that of the bad line in the file, from 1.
	Number int
	// Why says what is likely the matter, if that is known, to the letter.
	Why string
}

// Error is a sentence, as it is printed.
func (f *Fault) Error() string {
	switch f.Name {
	case Missing:
		return "there is no such file"
	case Empty:
		return "empty"
	case BadLine:
		if f.Why == "" {
			return fmt.Sprintf("bad line %d", f.Line)
		}
		return Printable(fmt.Sprintf("bad line %d: %s", f.Line, f.Why))
	default:
		return Printable("it can't be read: " + f.Why)
	}
}

// Verdict is what an audit found in a file.
type Verdict struct {
	Path string
	// Records is how many records were taken, and Head the id of the last of them.
	Records int
	Head    string
	// Refusal is the first record that is refused; nil if none is.
	Refusal *Refusal
	// Fault is what is wrong with the file itself; nil if nothing is.
	Fault *Fault
}

// Accepted is whether the whole log was read and each record of it is lawful.
func (v *Verdict) Accepted() bool {
	return v.Refusal == nil && v.Fault == nil
}

// String is a line, as it is printed, whatever stands in the path and in the record that is refused.
func (v *Verdict) String() string {
	told := fmt.Sprintf("ok %d %s", v.Records, v.Head)
	switch {
	case v.Fault != nil:
		told = v.Fault.Error()
	case v.Refusal != nil:
		told = v.Refusal.String()
	case v.Head == "":
		told = "ok 0 none"
	}
	return Printable(v.Path) + ": " + told
}

// Auditor audits logs that lie in files: an envelope a line, in hex, as the tool reads them. Each line ends with a line
// feed, which the last may lack, and a carriage return before that is dropped. Lines that begin with # are passed over,
// and so is the last of the others if it is blank.
type Auditor struct {
	// Kind is the kind of the logs.
	Kind Kind
	// Verify says of each record whether its signature belongs. Where it is nil the library verifies ECDSA P-256, and a
	// record whose key is of another algorithm is refused as UnknownAlgorithm.
	Verify func(*Question) bool
	// AllowEmpty takes a log of no records for lawful.
	AllowEmpty bool
	// Workers is how many files are read at once: as many as there are processors where it is 0.
	Workers int
}

// Audit audits the log in a file, by the library's verifier.
func Audit(path string, kind Kind) (*Verdict, error) {
	return Auditor{Kind: kind}.Audit(path)
}

// AuditMany audits the logs in many files side by side, and gives their verdicts in the order of the files.
func AuditMany(paths []string, kind Kind) ([]*Verdict, error) {
	return Auditor{Kind: kind}.AuditMany(paths)
}

// Audit audits the log in a file. What is wrong with the file or with a record is in the verdict. The error is
// ErrOutOfMemory, or ErrBadArgument where there is no such kind.
func (a Auditor) Audit(path string) (*Verdict, error) {
	file, err := os.Open(path)
	if err != nil {
		return &Verdict{Path: path, Fault: faultOf(err)}, a.check()
	}
	defer file.Close()
	return a.AuditLines(path, file)
}

// AuditLines audits the log that a reader gives, whose verdict has this path.
func (a Auditor) AuditLines(path string, lines io.Reader) (*Verdict, error) {
	verdict := &Verdict{Path: path}
	if err := a.check(); err != nil {
		return verdict, err
	}
	text, err := io.ReadAll(lines)
	if err != nil {
		verdict.Fault = faultOf(err)
		return verdict, nil
	}
	// The digits of all lines are tested before any record is judged, as the tool does.
	envelopes, fault := envelopesOf(text)
	if fault == nil && len(envelopes) == 0 && !a.AllowEmpty {
		fault = &Fault{Name: Empty}
	}
	if fault != nil {
		verdict.Fault = fault
		return verdict, nil
	}
	return verdict, a.judge(verdict, envelopes)
}

// AuditMany audits the logs in many files side by side, and gives their verdicts in the order of the files. What is
// wrong with one of them is in its own verdict. The error is that of the first file that has one.
func (a Auditor) AuditMany(paths []string) ([]*Verdict, error) {
	workers := a.Workers
	if workers <= 0 {
		workers = runtime.GOMAXPROCS(0)
	}
	verdicts, errs := make([]*Verdict, len(paths)), make([]error, len(paths))
	places := make(chan int)
	var running sync.WaitGroup
	for it := 0; it < workers && it < len(paths); it++ {
		running.Add(1)
		go func() {
			defer running.Done()
			for place := range places {
				verdicts[place], errs[place] = a.Audit(paths[place])
			}
		}()
	}
	for place := range paths {
		places <- place
	}
	close(places)
	running.Wait()
	for _, err := range errs {
		if err != nil {
			return verdicts, err
		}
	}
	return verdicts, nil
}

// check is whether the auditor's kind is one.
func (a Auditor) check() error {
	if a.Kind != Package && a.Kind != Operator {
		return errorNamed(ErrBadArgument, "NoKind: there is no such kind of logs")
	}
	return nil
}

// judge appends envelopes until one is refused, and says in the verdict what came of them.
func (a Auditor) judge(verdict *Verdict, envelopes [][]byte) error {
	log := &Log{}
	if err := log.open(a.Kind); err != nil {
		return err
	}
	defer log.Close()
	refusal, err := a.appendAll(log, envelopes)
	if err != nil {
		return err
	}
	verdict.Records, verdict.Refusal = len(envelopes), refusal
	if refusal != nil {
		verdict.Records = refusal.Place
		if err := a.addCause(refusal, envelopes[refusal.Place]); err != nil {
			return err
		}
	}
	verdict.Head, err = log.Head()
	return err
}

// appendAll appends envelopes until one is refused, and says which.
func (a Auditor) appendAll(log *Log, envelopes [][]byte) (*Refusal, error) {
	for place, envelope := range envelopes {
		err := a.append(log, envelope)
		var told *Error
		switch {
		case err == nil:
		case errors.Is(err, ErrOutOfMemory) || !errors.As(err, &told):
			return nil, err
		default:
			return &Refusal{Place: place, Name: told.Name, Sentence: told.Sentence}, nil
		}
	}
	return nil, nil
}

func (a Auditor) append(log *Log, envelope []byte) error {
	if a.Verify == nil {
		return log.AppendSigned(envelope)
	}
	return log.Append(envelope, a.Verify)
}

// addCause ends the sentence of a refusal with what it likely is where that is no publisher's fault.
func (a Auditor) addCause(refusal *Refusal, envelope []byte) error {
	if len(envelope) == 0 {
		refusal.Sentence += "; the line is blank: only the last line of a file may be"
		return nil
	}
	if refusal.Place != 0 {
		return nil
	}
	others := map[Kind]Kind{Package: Operator, Operator: Package}
	words := map[Kind]string{Operator: "an operator log", Package: "a package's log"}
	other := &Log{}
	if err := other.open(others[a.Kind]); err != nil {
		return err
	}
	defer other.Close()
	switch err := other.AppendSigned(envelope); {
	case err == nil:
		refusal.Sentence += "; it is a record of " + words[others[a.Kind]] + ": is the kind right?"
	case errors.Is(err, ErrOutOfMemory):
		return err
	}
	return nil
}

// envelopesOf are the envelopes that the lines of a text say.
func envelopesOf(text []byte) ([][]byte, *Fault) {
	var envelopes [][]byte
	lines := recordLines(text)
	for place, it := range lines {
		envelope := make([]byte, hex.DecodedLen(len(it.digits)))
		if _, err := hex.Decode(envelope, it.digits); err != nil {
			fault := &Fault{Name: BadLine, Line: place, Number: it.number}
			if it.number == 1 && bytes.HasPrefix(it.digits, []byte("\xef\xbb\xbf")) {
				fault.Why = "the file begins with a byte order mark"
			}
			return nil, fault
		}
		envelopes = append(envelopes, envelope)
	}
	return envelopes, nil
}

// recordLine is a line of a file that stands for a record: its number in the file, and what stands in it.
type recordLine struct {
	number int
	digits []byte
}

// recordLines are the lines of a text that stand for records.
func recordLines(text []byte) []recordLine {
	var lines []recordLine
	for number := 1; len(text) > 0; number++ {
		line, rest, _ := bytes.Cut(text, []byte("\n"))
		text = rest
		if !bytes.HasPrefix(line, []byte("#")) {
			lines = append(lines, recordLine{number: number, digits: bytes.TrimSuffix(line, []byte("\r"))})
		}
	}
	if last := len(lines) - 1; last >= 0 && len(lines[last].digits) == 0 {
		lines = lines[:last]
	}
	return lines
}

// faultOf is what the failure of a read says of its file.
func faultOf(err error) *Fault {
	if errors.Is(err, fs.ErrNotExist) {
		return &Fault{Name: Missing}
	}
	var path *fs.PathError
	if errors.As(err, &path) {
		err = path.Err
	}
	return &Fault{Name: Unreadable, Why: err.Error()}
}
