package main

import (
	"bytes"
	"errors"
	"strings"
	"testing"
)

// A log is published and lawful, and one with a forged record is refused.
func TestShow(t *testing.T) {
	var out bytes.Buffer
	isYes, err := run("", &out)
	lines := strings.Split(out.String(), "\n")
	if err != nil || !isYes || len(lines) != 3 {
		t.Fatalf("%v %v %q", isYes, err, lines)
	}
	if !strings.HasPrefix(lines[0], "log: ok 50 sha256:") || !strings.HasPrefix(lines[1], "log: refused 7 SignatureError: ") {
		t.Errorf("%q", lines)
	}
}

// A log that is printed is lawful.
func TestPrint(t *testing.T) {
	var log, out bytes.Buffer
	if _, err := run("print", &log); err != nil || strings.Count(log.String(), "\n") != 50 {
		t.Fatalf("%v %q", err, log.String())
	}
	if isYes, err := audit(&out, &log); err != nil || !isYes {
		t.Errorf("%v %q", err, out.String())
	}
}

type full struct{}

var errFull = errors.New("no space")

func (full) Write([]byte) (int, error) {
	return 0, errFull
}

// What can't be written is told.
func TestFull(t *testing.T) {
	for _, word := range []string{"", "print"} {
		if _, err := run(word, full{}); err != errFull {
			t.Errorf("%s: %v", word, err)
		}
	}
}
