package weoldrin_test

import (
	"math"
	"strings"
	"testing"

	"weoldrin.example/weoldrin"
)

// Proofs of a registry's log of 8 leaves and of its map of two logs, worked out elsewhere, and each forged.

// The digests of the texts `log 0`, `record 5` and so on.
const (
	log0    = "sha256:f24e3c07541a1385301129bde0a481e00c71972691b5e5788e97a16cf187d79b"
	log1    = "sha256:87fab3984f3589b084e27c67eac41bcb8aae0014d145cde22d561308e7117278"
	log2    = "sha256:d912d1199b4042f4dfe339e1070db6de911b4fa88de09b22f6fd5f803449e782"
	record3 = "sha256:7322e1c393bf2dffd7c20450a6b421b8681388696b5faee4e5d21cf2d358eb58"
	record5 = "sha256:28fdd77254977237364a167ba289ff718fbe76799cfd983dbf447346fa62a033"
	record6 = "sha256:ff265ddacaf872945c31beb9ab4820014bfe1f9990967ee612d9e9578d843126"
)

// The roots of the first leaves of the log. The record at a place has the number of the place, its log that of the place
// modulo 3. And the root of the map of the logs 0 and 1, whose last records are 6 and 7.
const (
	root0   = "sha256:e3b0c44298fc1c149afbf4c8996fb92427ae41e4649b934ca495991b7852b855"
	root5   = "sha256:55dbd0f8d25f3b9a260a2cc1c48008983e972732b921e58962ed64c4cb859fca"
	root6   = "sha256:1ea551254584ab55c648eee900f31a3fb7bb2d5474d3ea0fa23caa2905b6e9c5"
	root7   = "sha256:93a75471fa311dc2a0b4d46940d888e91e5c0331a242120c39c1dd8ce85f57f3"
	root8   = "sha256:0915e5e33416c991c2ac5d07c3499bbf68952d248c16afdc509217beede803e8"
	mapRoot = "sha256:6b3b29793c461452ef689fdfac26511b3862f7b70a4f576163ca60308bad21e6"
)

// Of the leaf at 5 of 8, of the first 6 leaves of 8, of the log 0 in the map, and that the log 2 is not there.
const (
	inclusion = "bML0VncumO1gymhI9p9DawMcQnVTNa2WUrNw14Aq7DELD7yQO/3GX1TnDyNdlyNl+BI5/0o0nLbP5Kt1TH2/cg371IIl6nKYXW5cNRhz" +
		"0vRw+5C8x4IjFkOBx8eooRUN"
	consistency = "wvE5Wb/Jqop3nsQ6f2wHydAFG6uJNOVcji8dnUA6//YLD7yQO/3GX1TnDyNdlyNl+BI5/0o0nLbP5Kt1TH2/cg371IIl6nKYXW5cNRhz" +
		"0vRw+5C8x4IjFkOBx8eooRUN"
	presence = "//////////////////////////////////////////3A8d/zksmUM6URQFUFx4j90WyBlQhgSMcs1XArvTUtmA=="
	absence  = "//////////////////////////////////////////kD9Qnw3FPJsRDX8sHizDLkLf83af8CgoV9sRxfkXpx08Dx3/OSyZQzpRFAVQXHiP3R" +
		"bIGVCGBIxyzVcCu9NS2Y"
)

// changed is a proof with another digit in its last hash.
func changed(proof string) string {
	start, end := proof[:len(proof)-8], proof[len(proof)-8:]
	if end[0] == 'A' {
		return start + "B" + end[1:]
	}
	return start + "A" + end[1:]
}

// answer is the answer of a call, or the name of its error.
func answer(holds bool, err error) string {
	switch {
	case err != nil:
		return err.(*weoldrin.Error).Name
	case holds:
		return "holds"
	default:
		return "does not hold"
	}
}

func TestInclusion(t *testing.T) {
	call := weoldrin.VerifyInclusion
	equal(t, answer(call(log2, record5, 5, 8, root8, inclusion)), "holds")
	upper := "sha256:" + strings.ToUpper(record5[7:])
	equal(t, answer(call(log2, upper, 5, 8, root8, inclusion)), "holds")
	// The proof has the same form in a log of 7: a root is worth nothing without the length that is signed with it.
	equal(t, answer(call(log2, record5, 5, 7, root8, inclusion)), "holds")
	for name, it := range map[string]string{
		"place":  answer(call(log2, record5, 4, 8, root8, inclusion)),
		"record": answer(call(log2, record6, 5, 8, root8, inclusion)),
		"log":    answer(call(log1, record5, 5, 8, root8, inclusion)),
		"root":   answer(call(log2, record5, 5, 8, root7, inclusion)),
		"proof":  answer(call(log2, record5, 5, 8, root8, changed(inclusion))),
		"other":  answer(call(log2, record5, 5, 8, root8, consistency)),
		"none":   answer(call(log2, record5, 5, 8, root8, "")),
		"short":  answer(call(log2, record5, 5, 6, root8, inclusion)),
		"long":   answer(call(log2, record5, 5, 9, root8, inclusion)),
		"least":  answer(call(log2, record5, 0, 0, root8, inclusion)),
		"most":   answer(call(log2, record5, math.MaxUint64, math.MaxUint64, root8, inclusion)),
	} {
		t.Run(name, func(t *testing.T) { equal(t, it, "does not hold") })
	}
}

func TestConsistency(t *testing.T) {
	call := weoldrin.VerifyConsistency
	equal(t, answer(call(6, root6, 8, root8, consistency)), "holds")
	equal(t, answer(call(8, root8, 8, root8, "")), "holds")
	equal(t, answer(call(0, root0, 8, root8, "")), "holds")
	equal(t, answer(call(math.MaxUint64, root8, math.MaxUint64, root8, "")), "holds")
	for name, it := range map[string]string{
		"from none": answer(call(0, root5, 8, root8, "")),
		"old":       answer(call(5, root5, 8, root8, consistency)),
		"backwards": answer(call(8, root8, 6, root6, consistency)),
		"root":      answer(call(8, root8, 8, root7, "")),
		"proof":     answer(call(6, root6, 8, root8, changed(consistency))),
		"most":      answer(call(math.MaxUint64, root8, math.MaxUint64, root7, "")),
	} {
		t.Run(name, func(t *testing.T) { equal(t, it, "does not hold") })
	}
}

func TestMap(t *testing.T) {
	equal(t, answer(weoldrin.VerifyPresence(log0, record6, mapRoot, presence)), "holds")
	equal(t, answer(weoldrin.VerifyAbsence(log2, mapRoot, absence)), "holds")
	for name, it := range map[string]string{
		"record":          answer(weoldrin.VerifyPresence(log0, record3, mapRoot, presence)),
		"log":             answer(weoldrin.VerifyPresence(log1, record6, mapRoot, presence)),
		"root":            answer(weoldrin.VerifyPresence(log0, record6, root8, presence)),
		"proof":           answer(weoldrin.VerifyPresence(log0, record6, mapRoot, changed(presence))),
		"absence of 0":    answer(weoldrin.VerifyAbsence(log0, mapRoot, presence)),
		"absence of 1":    answer(weoldrin.VerifyAbsence(log1, mapRoot, absence)),
		"absence's root":  answer(weoldrin.VerifyAbsence(log2, root8, absence)),
		"absence's proof": answer(weoldrin.VerifyAbsence(log2, mapRoot, changed(absence))),
	} {
		t.Run(name, func(t *testing.T) { equal(t, it, "does not hold") })
	}
}

// A text that is none has its fault's name.
func TestFaultsOfProofs(t *testing.T) {
	for _, it := range []string{"sha256", "sha256:00", "!", "A", "\x00", "é", "\xff"} {
		equal(t, answer(weoldrin.VerifyInclusion(it, record5, 5, 8, root8, inclusion)), "BadText")
		equal(t, answer(weoldrin.VerifyInclusion(log2, it, 5, 8, root8, inclusion)), "BadText")
		equal(t, answer(weoldrin.VerifyInclusion(log2, record5, 5, 8, it, inclusion)), "BadText")
		equal(t, answer(weoldrin.VerifyConsistency(6, it, 8, root8, consistency)), "BadText")
		equal(t, answer(weoldrin.VerifyConsistency(6, root6, 8, it, consistency)), "BadText")
		equal(t, answer(weoldrin.VerifyPresence(it, record6, mapRoot, presence)), "BadText")
		equal(t, answer(weoldrin.VerifyPresence(log0, it, mapRoot, presence)), "BadText")
		equal(t, answer(weoldrin.VerifyPresence(log0, record6, it, presence)), "BadText")
		equal(t, answer(weoldrin.VerifyAbsence(it, mapRoot, absence)), "BadText")
		equal(t, answer(weoldrin.VerifyAbsence(log2, it, absence)), "BadText")
		equal(t, answer(weoldrin.VerifyInclusion(log2, record5, 5, 8, root8, it)), "BadBase64")
		equal(t, answer(weoldrin.VerifyConsistency(6, root6, 8, root8, it)), "BadBase64")
		equal(t, answer(weoldrin.VerifyPresence(log0, record6, mapRoot, it)), "BadBase64")
		equal(t, answer(weoldrin.VerifyAbsence(log2, mapRoot, it)), "BadBase64")
	}
	// 64 hashes are the most that a proof on a log has, and 256 that one on a map has behind its 32 bytes.
	for groups, fault := range map[int]string{1: "BadLength", 683: "BadLength", 684: "TooLong", 700_000: "TooLong"} {
		equal(t, answer(weoldrin.VerifyInclusion(log2, record5, 5, 8, root8, strings.Repeat("AAAA", groups))), fault)
		equal(t, answer(weoldrin.VerifyConsistency(6, root6, 8, root8, strings.Repeat("AAAA", groups))), fault)
	}
	for groups, fault := range map[int]string{1: "BadLength", 2742: "BadLength", 2743: "TooLong", 700_000: "TooLong"} {
		equal(t, answer(weoldrin.VerifyAbsence(log2, mapRoot, strings.Repeat("AAAA", groups))), fault)
		equal(t, answer(weoldrin.VerifyPresence(log0, record6, mapRoot, strings.Repeat("AAAA", groups))), fault)
	}
}
