// Publishes a package's log with keys of P-256, audits it from its bytes alone, and shows that a forged record is
// refused.
//
// With the word print the log goes to standard output, an envelope a line in hex; with audit one is read from standard
// input, and the status is 1 where it is not lawful.
package main

import (
	"bufio"
	"bytes"
	"encoding/hex"
	"errors"
	"fmt"
	"io"
	"os"
	"syscall"
	"time"

	"weoldrin.example/weoldrin"
	"weoldrin.example/weoldrin/p256"
	"weoldrin.example/weoldrin/records"
)

// publish signs a record that goes on from the log, and appends it.
func publish(log *weoldrin.PackageLog, signer *p256.SigningKey, entries ...records.Entry) ([]byte, error) {
	head, err := log.Head()
	if err != nil {
		return nil, err
	}
	contents := records.Contents(head, time.Now(), entries...)
	envelope, err := records.Signed(weoldrin.Package, contents, signer.PublicKey(), signer.Sign)
	if err != nil {
		return nil, err
	}
	return envelope, log.AppendSigned(envelope)
}

// begin publishes the first record of a log: alice begins it and lets bob release.
func begin(log *weoldrin.PackageLog, alice, bob *p256.SigningKey) ([]byte, error) {
	grant, err := records.Grant(weoldrin.Package, bob.PublicKey(), weoldrin.MayRelease)
	if err != nil {
		return nil, err
	}
	return publish(log, alice, records.Init(alice.PublicKey()), grant)
}

// published is the text of a new log of so many records, an envelope a line.
func published(count int) ([]byte, error) {
	alice, err := p256.Generate()
	if err != nil {
		return nil, err
	}
	bob, err := p256.Generate()
	if err != nil {
		return nil, err
	}
	log, err := weoldrin.NewPackageLog()
	if err != nil {
		return nil, err
	}
	defer log.Close()
	envelope, err := begin(log, alice, bob)
	var text bytes.Buffer
	for minor := 1; err == nil; minor++ {
		fmt.Fprintln(&text, hex.EncodeToString(envelope))
		if minor == count {
			return text.Bytes(), nil
		}
		content := records.SHA256Text([]byte(fmt.Sprintf("content %d", minor)))
		envelope, err = publish(log, bob, records.Release(fmt.Sprintf("1.%d.0", minor), content))
	}
	return nil, err
}

// forge changes the signature of the eighth record: its last digits of base64, in hex.
func forge(text []byte) []byte {
	lines := bytes.Split(text, []byte("\n"))
	it := lines[7]
	digit := it[len(it)-8 : len(it)-6]
	if string(digit) == "41" {
		copy(digit, "42")
	} else {
		copy(digit, "41")
	}
	return bytes.Join(lines, []byte("\n"))
}

// audit prints the verdict on a log, and is whether it is lawful.
func audit(out io.Writer, lines io.Reader) (bool, error) {
	verdict, err := weoldrin.Auditor{Kind: weoldrin.Package}.AuditLines("log", lines)
	if err != nil {
		return false, err
	}
	_, err = fmt.Fprintln(out, verdict)
	return verdict.Accepted(), err
}

// show publishes a log, audits it, forges a record of it, and audits it again.
func show(out io.Writer) (bool, error) {
	text, err := published(50)
	if err != nil {
		return false, err
	}
	accepted, err := audit(out, bytes.NewReader(text))
	if err != nil {
		return false, err
	}
	taken, err := audit(out, bytes.NewReader(forge(text)))
	return accepted && !taken, err
}

// run does what the word says, and is whether the answer is yes.
func run(word string, out io.Writer) (bool, error) {
	switch word {
	case "print":
		text, err := published(50)
		if err == nil {
			_, err = out.Write(text)
		}
		return true, err
	case "audit":
		return audit(out, os.Stdin)
	default:
		return show(out)
	}
}

// status is 0 for yes, 1 for no, and 3 where something failed.
func status() int {
	out := bufio.NewWriter(os.Stdout)
	isYes, err := run(append(os.Args, "")[1], out)
	if err == nil {
		err = out.Flush()
	}
	switch {
	case errors.Is(err, syscall.EPIPE):
		// Whoever read the output has gone.
		return 0
	case err != nil:
		fmt.Fprintln(os.Stderr, weoldrin.Printable(err.Error()))
		return 3
	case isYes:
		return 0
	default:
		return 1
	}
}

func main() {
	os.Exit(status())
}
