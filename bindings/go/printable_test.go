package weoldrin_test

import (
	"fmt"
	"testing"
	"unicode/utf8"

	"weoldrin.example/weoldrin"
)

// Control characters, separators, marks of direction and of the order of bytes, and what is no character, are written by
// their numbers, a backslash twice, and all else as it is.
func TestEachCharacter(t *testing.T) {
	isEscaped := func(it rune) bool {
		switch {
		case it < 0x20, it >= 0x7f && it <= 0x9f, it == 0x61c, it == 0x200e, it == 0x200f, it >= 0x2028 && it <= 0x202e:
			return true
		}
		return it >= 0x2066 && it <= 0x2069 || it == 0xfeff || it >= 0xfdd0 && it <= 0xfdef || it%0x10000 >= 0xfffe
	}
	for it := rune(0); it <= utf8.MaxRune; it++ {
		if !utf8.ValidRune(it) {
			continue
		}
		wanted := string(it)
		switch {
		case it == '\\':
			wanted = `\\`
		case isEscaped(it):
			wanted = fmt.Sprintf(`\u{%x}`, it)
		}
		if seen := weoldrin.Printable(string(it)); seen != wanted {
			t.Fatalf("%x is printed as %q", it, seen)
		}
	}
}

func TestTexts(t *testing.T) {
	text := "a\x1b[2J\nb\u202ec\\u{a}\u009bGröße \U0001f511"
	equal(t, weoldrin.Printable(text), `a\u{1b}[2J\u{a}b\u{202e}c\\u{a}\u{9b}Größe 🔑`)
	// What is no UTF-8 is printed by its bytes, and the character that stands for such bytes as itself.
	equal(t, weoldrin.Printable("\x9b2J\xed\xa0\x80\xc3\ufffd"), `\x9b2J\xed\xa0\x80\xc3`+"\ufffd")
}
