package weoldrin_test

import (
	"fmt"
	"reflect"
	"strconv"
	"strings"

	"weoldrin.example/weoldrin"
	"weoldrin.example/weoldrin/internal/rows"
)

// player is a script on the way: a log that keeps its records, the state, which may have been saved and read back, and
// what was put aside.
type player struct {
	*suite
	name    string
	kind    weoldrin.Kind
	kept    anyLog
	state   anyLog
	base    string
	strings [][]byte
	aside   []anyLog
	refusal *weoldrin.Error
	refused rows.Line
}

// begin begins a log anew.
func (p *player) begin() {
	p.kept, p.state, p.base, p.strings = newLog(p.kind), newLog(p.kind), "", nil
}

func (p *player) play(script rows.Block) {
	for _, line := range script.Lines {
		p.line(line)
	}
	p.unnamed()
	p.checkAgain(script.Line)
}

func (p *player) line(line rows.Line) {
	if strings.HasPrefix(line.Text, "! ") {
		p.played++
		if p.refusal == nil || !isAnswer(p.refusal, line.Text[2:], p.sentences, p.kind) {
			p.suite.fail(p.name, line, p.refusal)
		}
		p.refusal = nil
		return
	}
	p.unnamed()
	switch {
	case strings.HasPrefix(line.Text, "? "):
		p.ask(p.name, line, p.answer)
	case line.Text == "resume":
		p.state = must(p.copy())
	case line.Text == "aside":
		p.checkAgain(line)
		p.aside = []anyLog{p.kept, p.state}
		p.begin()
	case strings.HasPrefix(line.Text, "state "):
		p.begin()
		p.kept, p.base = nil, strings.TrimPrefix(line.Text, "state ")
		p.state = must(fromJSON(p.kind, p.base))
	case line.Text == "again":
		p.append(line, p.strings[len(p.strings)-1])
	default:
		p.append(line, envelopeOf(p.kind, line.Text, must(p.state.Head())))
	}
}

// copy is a log that goes on from the state.
func (p *player) copy() (anyLog, error) {
	saved, err := p.state.ToJSON()
	if err != nil {
		return nil, err
	}
	return fromJSON(p.kind, saved)
}

// append appends to each log that there is: to a saved copy, to the one with records, and to the state.
func (p *player) append(line rows.Line, envelope []byte) {
	var logs []anyLog
	if p.kept != nil {
		logs = append(logs, p.kept)
	}
	if copied, err := p.copy(); err == nil {
		logs = append(logs, copied)
	}
	refusal := tried(p.state, envelope)
	for _, log := range logs {
		head := must(log.Head())
		other := tried(log, envelope)
		isAlike := (other == nil) == (refusal == nil) && (other == nil || other.Error() == refusal.Error())
		if !isAlike || refusal != nil && must(log.Head()) != head {
			p.suite.fail(p.name, line, fmt.Sprintf("answered otherwise by another log: %v, %v", other, refusal))
		}
		if refusal == nil && must(log.Head()) != must(p.state.Head()) {
			p.suite.fail(p.name, line, "another head")
		}
	}
	if refusal != nil {
		p.refusal, p.refused = refusal, line
		return
	}
	p.strings = append(p.strings, envelope)
	if must(p.state.Head()) != must(weoldrin.RecordID(p.kind, envelope)) {
		p.suite.fail(p.name, line, "the head is not the record's id")
	}
}

// unnamed fails a refusal that no row wanted.
func (p *player) unnamed() {
	if p.refusal != nil {
		p.suite.fail(p.name, p.refused, p.refusal)
	}
	p.refusal = nil
}

// checkAgain is that the strings that were taken give an equal state from the beginning.
func (p *player) checkAgain(line rows.Line) {
	again := newLog(p.kind)
	if p.base != "" {
		again = must(fromJSON(p.kind, p.base))
	}
	for _, it := range p.strings {
		if refusal := tried(again, it); refusal != nil {
			p.suite.fail(p.name, line, refusal)
		}
	}
	first, err := stateOf(again)
	second, other := stateOf(p.state)
	if (err == nil) != (other == nil) || !reflect.DeepEqual(first, second) {
		p.suite.fail(p.name, line, "the strings give another state")
	}
}

// answer is what the log answers to a question.
func (p *player) answer(question string) (string, error) {
	words := cut(question, 3)
	switch words[0] {
	case "effect":
		return "", errLeftOut
	case "records":
		length, err := p.kept.Len()
		return strconv.Itoa(length), err
	case "chain":
		links, err := p.kept.Chain(idOf(words[1]), weoldrin.Permission(words[2]))
		said := make([]string, len(links))
		for place, it := range links {
			said[place] = fmt.Sprintf("%d.%d", it.Record, it.Entry)
		}
		return orNone(strings.Join(said, " ")), err
	case "comparison", "heads":
		return p.compared(words[0])
	case "equal":
		first, err := stateOf(p.state)
		second := must(stateOf(p.aside[1]))
		return fmt.Sprint(reflect.DeepEqual(first, second)), err
	}
	return stateAnswer(p.state, words[0], words[1])
}

// compared is how the log stands to the one that was put aside.
func (p *player) compared(question string) (string, error) {
	found, err := compare(p.kept, p.aside[0])
	switch {
	case question == "heads" && must(p.kept.Head()) != must(p.aside[0].Head()):
		return "different", err
	case question == "heads" && found.Relation != weoldrin.Collision:
		return "same", err
	case question == "heads":
		return "collision", err
	}
	said := strings.ReplaceAll(found.Relation.String(), " ", "-")
	switch found.Relation {
	case weoldrin.Same:
		return said, err
	case weoldrin.Collision:
		return fmt.Sprintf("%s %d %d", said, found.Left, found.Right), err
	default:
		return fmt.Sprintf("%s %d", said, found.Left), err
	}
}

func compare(left, right anyLog) (weoldrin.Comparison, error) {
	if it, isPackage := left.(*weoldrin.PackageLog); isPackage {
		return it.Compare(right.(*weoldrin.PackageLog))
	}
	return left.(*weoldrin.OperatorLog).Compare(right.(*weoldrin.OperatorLog))
}
