// Package rows reads the files of the conformance suite, for the tests: the grammar of conformance/README.md.
package rows

import (
	"encoding/hex"
	"encoding/json"
	"fmt"
	"os"
	"path/filepath"
	"regexp"
	"sort"
	"strings"
	"testing"
)

// Line is a line without the white space at its ends, or several that were folded.
type Line struct {
	Number int
	Text   string
}

// Block is a row, or the head of a script with its lines.
type Block struct {
	Line
	Lines []Line
}

// Row is a question, and its answer with the separator.
type Row struct {
	Question string
	Wanted   string
}

// Files are those of the suite that a pattern names, from the folder of a test that lies so many folders below the
// repository's. The test is skipped where there are none, as where the module was fetched by itself.
func Files(t *testing.T, depth int, pattern string) []string {
	t.Helper()
	folder := filepath.Join(strings.Repeat("../", depth), "conformance")
	found, err := filepath.Glob(filepath.Join(folder, pattern))
	if err != nil {
		t.Fatal(err)
	}
	if len(found) == 0 {
		t.Skip("there are no rows here")
	}
	return found
}

// Blocks are the blocks of a file, without comments and blank lines.
func Blocks(path string) ([]Block, error) {
	data, err := os.ReadFile(path)
	if err != nil {
		return nil, err
	}
	var found []Block
	isOpen := false
	for place, line := range strings.Split(string(data), "\n") {
		text := strings.TrimSpace(line)
		if !isOpen && (text == "" || strings.HasPrefix(text, "#")) {
			continue
		}
		goesOn := strings.HasSuffix(text, `\`)
		text = strings.TrimSuffix(text, `\`)
		last := len(found) - 1
		switch {
		case isOpen && len(found[last].Lines) > 0:
			found[last].Lines[len(found[last].Lines)-1].Text += text
		case isOpen:
			found[last].Text += text
		case strings.HasPrefix(line, " ") && last >= 0:
			found[last].Lines = append(found[last].Lines, Line{Number: place + 1, Text: text})
		case strings.HasPrefix(line, " "):
			return nil, fmt.Errorf("%s:%d: a line of no script", path, place+1)
		default:
			found = append(found, Block{Line: Line{Number: place + 1, Text: text}})
		}
		isOpen = goesOn
	}
	return found, nil
}

// RowOf is the row of a text, cut at the first separator outside quotes.
func RowOf(text string) (Row, error) {
	isQuoted := false
	for place := 0; place < len(text); place++ {
		switch {
		case isQuoted && text[place] == '\\':
			place++
		case text[place] == '"':
			isQuoted = !isQuoted
		case !isQuoted && (strings.HasPrefix(text[place:], " = ") || strings.HasPrefix(text[place:], " ! ")):
			return Row{Question: strings.TrimSpace(text[:place]), Wanted: strings.TrimSpace(text[place:])}, nil
		}
	}
	return Row{}, fmt.Errorf("a row without an answer: %s", text)
}

var word = regexp.MustCompile(`"(?:[^"\\]|\\.)*"|\S+`)

// WordsOf are the words of a row, as texts.
func WordsOf(text string) []string {
	words := word.FindAllString(text, -1)
	for place, it := range words {
		words[place] = TextOf(it)
	}
	return words
}

// TextOf is the text that a word says.
func TextOf(word string) string {
	var text string
	if !strings.HasPrefix(word, `"`) || json.Unmarshal([]byte(word), &text) != nil {
		return word
	}
	return text
}

// Quoted is a text as it stands in an answer: a JSON string where it has to be.
func Quoted(text string) string {
	isStrange := func(it rune) bool { return it < 0x20 || it == 0x7f || it == '"' || it == '\\' }
	if text == "" || text != strings.TrimSpace(text) || strings.IndexFunc(text, isStrange) >= 0 {
		return jsonString(text)
	}
	return text
}

var short = strings.NewReplacer(`"`, `\"`, `\`, `\\`, "\b", `\b`, "\f", `\f`, "\n", `\n`, "\r", `\r`, "\t", `\t`)

// jsonString is a text as a string of JSON with the shortest escapes.
func jsonString(text string) string {
	var written strings.Builder
	for _, it := range short.Replace(text) {
		if it < 0x20 {
			fmt.Fprintf(&written, `\u%04x`, it)
		} else {
			written.WriteRune(it)
		}
	}
	return `"` + written.String() + `"`
}

// Read is the value that a text of JSON says, with its numbers as they are written.
func Read(text string) (any, error) {
	decoder := json.NewDecoder(strings.NewReader(text))
	decoder.UseNumber()
	var value any
	err := decoder.Decode(&value)
	return value, err
}

// Written is a value of JSON in its shortest form, with members in the byte order of their names.
func Written(value any) string {
	switch it := value.(type) {
	case map[string]any:
		names := make([]string, 0, len(it))
		for name := range it {
			names = append(names, name)
		}
		sort.Strings(names)
		for place, name := range names {
			names[place] = jsonString(name) + ":" + Written(it[name])
		}
		return "{" + strings.Join(names, ",") + "}"
	case []any:
		parts := make([]string, len(it))
		for place, part := range it {
			parts[place] = Written(part)
		}
		return "[" + strings.Join(parts, ",") + "]"
	case string:
		return jsonString(it)
	case nil:
		return "null"
	default:
		return fmt.Sprint(it)
	}
}

// BytesOf are the bytes of a word of hex digits; "-" is no bytes.
func BytesOf(word string) ([]byte, error) {
	if word == "-" {
		return nil, nil
	}
	return hex.DecodeString(word)
}
