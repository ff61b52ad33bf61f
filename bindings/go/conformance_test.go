package weoldrin_test

import (
	"bytes"
	"encoding/hex"
	"errors"
	"fmt"
	"path/filepath"
	"reflect"
	"strconv"
	"strings"
	"testing"

	"weoldrin.example/weoldrin"
	"weoldrin.example/weoldrin/internal/rows"
)

// suite is a run over the rows of conformance/logs.
type suite struct {
	t         *testing.T
	sentences *rows.Sentences
	played    int
	leftOut   map[string]int
}

// The rows of conformance/logs that speak of whole logs, states, chains and comparisons, answer for answer.
func TestConformance(t *testing.T) {
	files := rows.Files(t, 2, "logs/*.rows")
	sentences := must(rows.SentencesOf(filepath.Join(filepath.Dir(files[0]), "refusals.rows")))
	run := &suite{t: t, sentences: sentences, leftOut: map[string]int{}}
	for _, path := range files {
		for _, block := range must(rows.Blocks(path)) {
			run.play(filepath.Base(path), block)
		}
	}
	fmt.Printf("%d rows of logs played, left out: %v\n", run.played, run.leftOut)
	if run.played < 700 {
		t.Errorf("%d rows are too few", run.played)
	}
	// The refusals that no log shows: there is one hash algorithm, want of memory has a status of its own, and any
	// other entry of operators than an init asks for a permission first.
	wanted := map[string]bool{
		"package IncorrectHashAlgorithm": true, "package OutOfMemory": true, "operator FirstEntryIsNotInit": true,
		"operator IncorrectHashAlgorithm": true, "operator OutOfMemory": true, "envelope OutOfMemory": true,
	}
	never := map[string]bool{}
	for _, it := range sentences.NotCompared() {
		never[it] = true
	}
	if !reflect.DeepEqual(never, wanted) {
		t.Errorf("sentences that were not compared: %v", never)
	}
}

func (s *suite) fail(name string, line rows.Line, seen any) {
	s.t.Errorf("%s:%d: %s: seen %v", name, line.Number, line.Text, seen)
}

// play plays a row or a script.
func (s *suite) play(name string, block rows.Block) {
	words := strings.Split(strings.TrimSuffix(block.Text, ":"), " ")
	kind, err := weoldrin.KindOf(append(words, "")[1])
	switch topic := words[0]; {
	case topic == "refusal" || topic == "newest-version" || topic == "saved" && err != nil:
		s.leftOut[topic]++
	case topic == "log":
		player := &player{suite: s, name: name, kind: kind}
		player.begin()
		player.play(block)
	case topic == "run":
		s.run(name, block, kind)
	case topic == "saved":
		s.saved(name, block, kind)
	case topic == "audit":
		s.program(name, block, words[1:])
	default:
		s.fail(name, block.Line, "a strange topic")
	}
}

// saved is a row on a whole saved state.
func (s *suite) saved(name string, block rows.Block, kind weoldrin.Kind) {
	row := must(rows.RowOf(block.Text))
	text := rows.TextOf(strings.TrimPrefix(row.Question, "saved "+kind.String()+" "))
	log, err := fromJSON(kind, text)
	seen := ""
	if err == nil {
		seen = "= " + rows.Written(must(stateOf(log)))
	} else {
		// The library names a fault by its own case: not that it is of a value, nor what does not fit together.
		fault := err.(*weoldrin.Error).Name
		seen = "! " + fault
		for place, it := range strings.Split(strings.TrimPrefix(row.Wanted, "! "), ".") {
			if place < 2 && it == fault {
				seen = row.Wanted
			}
		}
	}
	s.played++
	if seen != row.Wanted {
		s.fail(name, block.Line, seen)
	}
}

// run is a script on a log that is read as a whole: a record names the one before it, whether that is lawful or not.
func (s *suite) run(name string, block rows.Block, kind weoldrin.Kind) {
	log := newLog(kind)
	var refusal *weoldrin.Error
	var before []byte
	last, place := "", 0
	for _, line := range block.Lines {
		if strings.HasPrefix(line.Text, "! ") || strings.HasPrefix(line.Text, "? ") || refusal != nil {
			continue
		}
		if line.Text != "again" {
			before = envelopeOf(kind, line.Text, last)
		}
		if strings.Contains(line.Text, ":") {
			last = must(weoldrin.RecordID(kind, before))
		}
		if refusal = tried(log, before); refusal == nil {
			place++
		}
	}
	for _, line := range block.Lines {
		switch {
		case strings.HasPrefix(line.Text, "! "):
			at, cause, _ := strings.Cut(line.Text[2:], " ")
			s.played++
			if refusal == nil || at != strconv.Itoa(place) || !isAnswer(refusal, cause, s.sentences, kind) {
				s.fail(name, line, refusal)
			}
		case strings.HasPrefix(line.Text, "? "):
			s.ask(name, line, func(question string) (string, error) {
				words := cut(question, 2)
				return stateAnswer(log, words[0], words[1])
			})
		}
	}
}

// ask is a line that asks something.
func (s *suite) ask(name string, line rows.Line, answer func(question string) (string, error)) {
	row := must(rows.RowOf(line.Text[2:]))
	seen, err := answer(row.Question)
	var told *weoldrin.Error
	switch {
	case errors.Is(err, errLeftOut):
		s.leftOut[cut(row.Question, 2)[0]]++
		return
	case errors.As(err, &told) && told.Name == "TimeBeforeEpoch" && row.Question == "head time":
		s.leftOut["a head's time before 1970"]++
		return
	case errors.As(err, &told):
		seen = "! " + told.Name
	default:
		seen = "= " + seen
	}
	s.played++
	if !isSame(cut(row.Question, 2)[0], seen, row.Wanted) {
		s.fail(name, line, seen)
	}
}

// program is a script on what the program warg_audit prints.
func (s *suite) program(name string, block rows.Block, words []string) {
	parts := map[string]string{}
	for _, line := range block.Lines {
		if !strings.HasPrefix(line.Text, "? ") {
			part, text, _ := strings.Cut(line.Text, " = ")
			parts["{"+part+"}"] = text
			continue
		}
		kind, err := weoldrin.KindOf(append([]string{""}, words...)[len(words)])
		isID := len(words) == 2 && words[0] == "id"
		if err != nil || len(words) != 1 && !isID {
			s.leftOut["other words of the program"]++
			continue
		}
		row := must(rows.RowOf(line.Text[2:]))
		given := rows.TextOf(row.Question)
		for part, text := range parts {
			given = strings.ReplaceAll(given, part, text)
		}
		answer := audited
		if isID {
			answer = identified
		}
		printed, refusal, err := answer(kind, []byte(given))
		if err != nil {
			s.leftOut["the id of contents that are no record"]++
			continue
		}
		s.played++
		isTold := refusal == nil || s.sentences.ToldByName(kind.String(), refusal.Name, refusal.Sentence)
		if "= "+printed != row.Wanted || !isTold {
			s.fail(name, line, printed)
		}
	}
}

// stringsOf are what lines say that warg_audit reads, which passes over none, or the place of a bad one.
func stringsOf(given []byte) ([][]byte, int) {
	var found [][]byte
	for len(given) > 0 {
		line, rest, _ := bytes.Cut(given, []byte("\n"))
		data, err := hex.DecodeString(string(bytes.TrimSuffix(line, []byte("\r"))))
		if err != nil {
			return found, len(found)
		}
		found, given = append(found, data), rest
	}
	return found, -1
}

// audited is the status and the text of an audit of lines, and why a record is refused.
func audited(kind weoldrin.Kind, given []byte) (string, *weoldrin.Error, error) {
	all, bad := stringsOf(given)
	if bad >= 0 {
		return "2 " + rows.Quoted(fmt.Sprintf("bad line %d\n", bad)), nil, nil
	}
	log := newLog(kind)
	for place, it := range all {
		if refusal := tried(log, it); refusal != nil {
			return "1 " + rows.Quoted(fmt.Sprintf("refused %d %s\n", place, refusal.Name)), refusal, nil
		}
	}
	told := fmt.Sprintf("ok %d %s\n", len(all), orNone(must(log.Head())))
	if it, isPackage := log.(*weoldrin.PackageLog); isPackage {
		for _, release := range must(it.Releases()) {
			state := "yanked"
			if !release.Yanked {
				state = "released " + release.Content
			}
			told += release.Version + " " + state + "\n"
		}
	}
	return "0 " + rows.Quoted(told), nil, nil
}

// identified is the same of the id of the one record that there is a line of.
func identified(kind weoldrin.Kind, given []byte) (string, *weoldrin.Error, error) {
	all, bad := stringsOf(given)
	switch {
	// The lines behind the second one are not looked at.
	case bad >= 0 && bad < 2:
		return "2 " + rows.Quoted(fmt.Sprintf("bad line %d\n", bad)), nil, nil
	case len(all) == 0:
		return "2 " + rows.Quoted("bad line 0\n"), nil, nil
	case len(all) > 1:
		return "2 " + rows.Quoted("bad line 1\n"), nil, nil
	}
	id, err := weoldrin.RecordID(kind, all[0])
	if err == nil {
		return "0 " + rows.Quoted(id+"\n"), nil, nil
	}
	told := err.(*weoldrin.Error)
	if !strings.HasPrefix(told.Name, "ProtobufEnvelope.") {
		return "", nil, errLeftOut
	}
	return "1 " + rows.Quoted("refused 0 "+told.Name+"\n"), told, nil
}
