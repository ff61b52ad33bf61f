package rows

import (
	"fmt"
	"regexp"
	"strings"
	"unicode"
)

// cause is a kind of logs, or envelope, and the name of an error.
type cause struct {
	topic, name string
}

// Sentences are the sentence of each cause that has a row in logs/refusals.rows, also with other fields than the row's.
// A form has its fields as numbers behind a zero byte.
type Sentences struct {
	forms    map[cause]string
	order    []cause
	compared map[cause]int
}

// SentencesOf are those of a file.
func SentencesOf(path string) (*Sentences, error) {
	blocks, err := Blocks(path)
	if err != nil {
		return nil, err
	}
	found := &Sentences{forms: map[cause]string{}, compared: map[cause]int{}}
	for _, block := range blocks {
		row, err := RowOf(block.Text)
		if err != nil {
			return nil, err
		}
		words := WordsOf(strings.TrimPrefix(row.Question, "refusal "))
		of := cause{words[0], words[1]}
		if _, known := found.forms[of]; known {
			continue
		}
		form := TextOf(strings.TrimPrefix(row.Wanted, "= "))
		for place, field := range words[2:] {
			form = withField(form, field, fmt.Sprintf("\x00%d", place))
		}
		found.forms[of], found.order = form, append(found.order, of)
	}
	return found, nil
}

// withField is a sentence with another text for each whole word that is a field.
func withField(sentence, field, other string) string {
	isWord := func(it rune) bool { return it == '_' || it == 0 || unicode.IsLetter(it) || unicode.IsDigit(it) }
	var written strings.Builder
	before := ' '
	for rest := sentence; rest != ""; {
		if field != "" && strings.HasPrefix(rest, field) && !isWord(before) {
			after := []rune(rest[len(field):] + " ")[0]
			if !isWord(after) {
				written.WriteString(other)
				rest, before = rest[len(field):], 'x'
				continue
			}
		}
		it := []rune(rest)[0]
		written.WriteRune(it)
		rest, before = rest[len(string(it)):], it
	}
	return written.String()
}

// caseOf is the case that has the part of an envelope which a fault is of; empty if there is none.
func (s *Sentences) caseOf(name string) string {
	part, _, _ := strings.Cut(name, ".")
	for _, it := range s.order {
		if head, _, _ := strings.Cut(it.name, "."); it.topic == "envelope" && head == part {
			return it.name
		}
	}
	return ""
}

// Told is whether a sentence is the whole one of a cause with these fields. A fault of an envelope is told by the part
// that it is of; if no row has that, the sentence may be any.
func (s *Sentences) Told(topic, name string, fields []string, sentence string) bool {
	of := cause{topic, name}
	if topic == "envelope" {
		of.name = s.caseOf(name)
		if of.name == "" {
			return sentence != ""
		}
	}
	form, known := s.forms[of]
	if !known {
		return false
	}
	s.compared[of]++
	for place, field := range fields {
		form = strings.ReplaceAll(form, fmt.Sprintf("\x00%d", place), field)
	}
	return sentence == form
}

// ToldByName is whether a sentence is the one of an error of this name, whatever its fields. If no row has it, it may be
// any.
func (s *Sentences) ToldByName(topic, name, sentence string) bool {
	of := cause{topic, name}
	if part := s.caseOf(name); part != "" {
		of = cause{"envelope", part}
	}
	form, known := s.forms[of]
	if !known {
		return sentence != ""
	}
	s.compared[of]++
	pattern := regexp.MustCompile("\x00[0-9]").ReplaceAllString(regexp.QuoteMeta(form), ".*")
	return regexp.MustCompile("(?s)^" + pattern + "$").MatchString(sentence)
}

// NotCompared are the causes of refusals of both kinds, and of envelopes, whose sentence was not compared.
func (s *Sentences) NotCompared() []string {
	var left []string
	for _, it := range s.order {
		isShown := it.topic == "package" || it.topic == "operator" || it.topic == "envelope"
		if isShown && s.compared[it] == 0 {
			left = append(left, it.topic+" "+it.name)
		}
	}
	return left
}
