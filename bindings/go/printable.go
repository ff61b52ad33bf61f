package weoldrin

import (
	"strconv"
	"strings"
	"unicode"
	"unicode/utf8"
)

// Printable is a text as it is printed: \u{1b} in place of a control character, a separator of lines, a mark of
// direction or a number that is no character, and two backslashes for one. A byte that belongs to no character is
// printed as \x and its two digits. Two texts that are printed alike are one.
func Printable(text string) string {
	var shown strings.Builder
	for at := 0; at < len(text); {
		it, size := utf8.DecodeRuneInString(text[at:])
		switch {
		case it == utf8.RuneError && size <= 1:
			shown.WriteString(`\x` + string(digits[text[at]>>4]) + string(digits[text[at]&15]))
		case it == '\\':
			shown.WriteString(`\\`)
		case isHidden(it):
			shown.WriteString(`\u{` + strconv.FormatInt(int64(it), 16) + "}")
		default:
			shown.WriteRune(it)
		}
		at += size
	}
	return shown.String()
}

const digits = "0123456789abcdef"

// isHidden is whether a terminal, or a reader of lines, may take the character for more than a sign.
func isHidden(it rune) bool {
	switch {
	case unicode.IsControl(it), it == 0x2028, it == 0x2029:
		return true
	// Marks of direction, and of the order of bytes.
	case it == 0x61c, it == 0x200e, it == 0x200f, it >= 0x202a && it <= 0x202e, it >= 0x2066 && it <= 0x2069, it == 0xfeff:
		return true
	// What is no character.
	default:
		return it >= 0xfdd0 && it <= 0xfdef || it&0xfffe == 0xfffe
	}
}
