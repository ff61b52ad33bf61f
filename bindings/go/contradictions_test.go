package weoldrin_test

import (
	"errors"
	"math"
	"strings"
	"testing"

	"weoldrin.example/weoldrin"
)

// What a registry showed twice under one root: two answers about the last record of a log, and two beginnings of its
// log.

// mapFaults are texts that are none of a proof on a map, and their faults; logFaults are those of one on a log.
var (
	mapFaults = map[string]string{
		"A": "BadBase64", "": "BadLength", strings.Repeat("A", 10969): "TooLong", "\xff": "BadBase64",
	}
	logFaults = map[string]string{
		"A": "BadBase64", "AA==": "BadLength", strings.Repeat("A", 2733): "TooLong", "\xff": "BadBase64",
	}
)

// answerOf is the last record of a log, or none, with its proof.
func (m made) answerOf(logID string) weoldrin.Head {
	return weoldrin.Head{RecordID: m.head(logID), Proof: m.mapProof(logID)}
}

// beginning is the checkpoint of the first leaves, forked or not, with the proof that the log of all begins with its
// own.
func (m made) beginning(first int, isForked bool) weoldrin.ShownBeginning {
	return weoldrin.ShownBeginning{Checkpoint: newMade(first, isForked).checkpoint, Proof: m.consistency(first)}
}

// comparedHeads is the answer of a comparison of answers about a log, or the name of its error.
func comparedHeads(root, logID string, one, other weoldrin.Head) string {
	found, err := weoldrin.CompareHeads(root, logID, one, other)
	if err != nil {
		return err.(*weoldrin.Error).Name
	}
	return found.String()
}

// comparedBeginnings is the answer of a comparison of beginnings, or the name of its error.
func comparedBeginnings(newer weoldrin.Checkpoint, one, other weoldrin.ShownBeginning) string {
	found, err := weoldrin.CompareBeginnings(newer, one, other)
	if err != nil {
		return err.(*weoldrin.Error).Name
	}
	return found.String()
}

// areAnswers fails a test where two answers compare otherwise, in either order.
func areAnswers(t *testing.T, root, logID string, one, other weoldrin.Head, wanted string) {
	t.Helper()
	equal(t, comparedHeads(root, logID, one, other), wanted)
	equal(t, comparedHeads(root, logID, other, one), wanted)
}

// areBeginnings fails a test where two beginnings compare otherwise, in either order.
func areBeginnings(t *testing.T, newer weoldrin.Checkpoint, one, other weoldrin.ShownBeginning, wanted string) {
	t.Helper()
	equal(t, comparedBeginnings(newer, one, other), wanted)
	equal(t, comparedBeginnings(newer, other, one), wanted)
}

// A record, or none. The log 3 has no leaf.
func TestAnswersThatAreOne(t *testing.T) {
	own := newMade(9, false)
	root := own.checkpoint.MapRoot
	for number := 0; number <= parted; number++ {
		one := own.answerOf(logNumber(number))
		equal(t, one.RecordID == "", number == 3)
		areAnswers(t, root, logNumber(number), one, one, "same")
	}
	one := own.answerOf(logNumber(parted))
	capitals := weoldrin.Head{RecordID: upper(one.RecordID), Proof: one.Proof}
	equal(t, capitals == one, false)
	areAnswers(t, upper(root), upper(logNumber(parted)), capitals, one, "same")
}

// One of the proofs does not hold, or neither.
func TestAnswersThatAreNotShown(t *testing.T) {
	own, fork := newMade(9, false), newMade(9, true)
	root, logID, noneID := own.checkpoint.MapRoot, logNumber(parted), logNumber(3)
	one, none := own.answerOf(logID), own.answerOf(noneID)
	for _, wrong := range []weoldrin.Head{
		{RecordID: "", Proof: one.Proof},
		{RecordID: recordNumber(-1), Proof: one.Proof},
		{RecordID: one.RecordID, Proof: none.Proof},
		{RecordID: one.RecordID, Proof: changed(one.Proof)},
		fork.answerOf(logID),
		newMade(parted, false).answerOf(logID),
		none,
	} {
		areAnswers(t, root, logID, wrong, one, "not shown")
		areAnswers(t, root, logID, wrong, wrong, "not shown")
	}
	for _, wrong := range []weoldrin.Head{
		{RecordID: one.RecordID, Proof: none.Proof},
		{RecordID: "", Proof: one.Proof},
		one,
	} {
		areAnswers(t, root, noneID, none, wrong, "not shown")
	}
	areAnswers(t, fork.checkpoint.MapRoot, logID, one, one, "not shown")
}

// Texts of no form. An empty one is no hash, but a record's: there is none then.
func TestAnswersOfNoForm(t *testing.T) {
	own := newMade(9, false)
	root, logID := own.checkpoint.MapRoot, logNumber(parted)
	one, none := own.answerOf(logID), own.answerOf(logNumber(3))
	for _, text := range noHashes {
		equal(t, comparedHeads(text, logID, one, one), "BadText")
		equal(t, comparedHeads(root, text, one, one), "BadText")
		wrong, wanted := weoldrin.Head{RecordID: text, Proof: one.Proof}, "BadText"
		if text == "" {
			wanted = "not shown"
		}
		areAnswers(t, root, logID, wrong, one, wanted)
		areAnswers(t, root, logID, wrong, none, wanted)
	}
	for text, name := range mapFaults {
		for _, recordID := range []string{one.RecordID, ""} {
			wrong := weoldrin.Head{RecordID: recordID, Proof: text}
			areAnswers(t, root, logID, wrong, one, name)
			areAnswers(t, root, logID, wrong, none, name)
		}
	}
	first, second := one, one
	first.Proof, second.Proof = "A", ""
	equal(t, comparedHeads(root, logID, first, second), "BadBase64")
	equal(t, comparedHeads(root, logID, second, first), "BadLength")
	found, err := weoldrin.CompareHeads(root, logID, first, second)
	equal(t, errors.Is(err, weoldrin.ErrBadArgument), true)
	equal(t, found, weoldrin.HeadSame)
}

// Of one registry: the same, and two lengths.
func TestBeginningsOfOneRegistry(t *testing.T) {
	newer := newMade(9, false)
	for first := 0; first <= 9; first++ {
		for second := 0; second <= 9; second++ {
			wanted := "two lengths"
			if first == second {
				wanted = "same"
			}
			one, other := newer.beginning(first, false), newer.beginning(second, false)
			equal(t, comparedBeginnings(newer.checkpoint, one, other), wanted)
		}
	}
}

// Of one log, by the root of the map. Times and capitals are not looked at, and neither is the newer map.
func TestBeginningsThatFork(t *testing.T) {
	newer := newMade(9, false)
	one := newer.beginning(6, false)
	other, capitals := one, one
	other.Checkpoint.MapRoot = newMade(5, false).checkpoint.MapRoot
	areBeginnings(t, newer.checkpoint, one, other, "fork")
	capitals.Checkpoint = weoldrin.Checkpoint{
		LogRoot: upper(one.Checkpoint.LogRoot), LogLength: 6, MapRoot: upper(one.Checkpoint.MapRoot),
		Timestamp: math.MaxUint64,
	}
	areBeginnings(t, newer.checkpoint, one, capitals, "same")
	noMap := newer.checkpoint
	noMap.MapRoot = "none"
	areBeginnings(t, noMap, one, other, "fork")
}

// One of the proofs does not hold, or neither.
func TestBeginningsThatAreNotShown(t *testing.T) {
	newer, fork := newMade(9, false), newMade(9, true)
	one := newer.beginning(6, false)
	all := make([]weoldrin.ShownBeginning, 5)
	for place := range all {
		all[place] = one
	}
	all[0].Proof, all[1].Proof, all[2].Proof = "", changed(one.Proof), newer.consistency(5)
	all[3].Checkpoint, all[4].Checkpoint = newMade(6, true).checkpoint, newMade(5, false).checkpoint
	for _, wrong := range append(all, fork.beginning(6, true)) {
		areBeginnings(t, newer.checkpoint, wrong, one, "not shown")
		areBeginnings(t, newer.checkpoint, wrong, wrong, "not shown")
	}
	for _, it := range []made{fork, newMade(8, false), newMade(5, false)} {
		areBeginnings(t, it.checkpoint, one, one, "not shown")
	}
	last := newer.checkpoint
	last.LogLength = math.MaxUint64
	areBeginnings(t, last, one, one, "not shown")
}

// Texts of no form, of each side; the fault of the first proof comes first.
func TestBeginningsOfNoForm(t *testing.T) {
	newer := newMade(9, false)
	one := newer.beginning(6, false)
	for _, text := range noHashes {
		wrongLog, wrongMap, wrongRoot := one, one, newer.checkpoint
		wrongLog.Checkpoint.LogRoot, wrongMap.Checkpoint.MapRoot, wrongRoot.LogRoot = text, text, text
		areBeginnings(t, newer.checkpoint, wrongLog, one, "BadText")
		areBeginnings(t, newer.checkpoint, wrongMap, one, "BadText")
		areBeginnings(t, wrongRoot, one, one, "BadText")
	}
	for text, name := range logFaults {
		wrong := one
		wrong.Proof = text
		areBeginnings(t, newer.checkpoint, wrong, one, name)
	}
	first, second := one, one
	first.Proof, second.Proof = "A", "AA=="
	equal(t, comparedBeginnings(newer.checkpoint, first, second), "BadBase64")
	equal(t, comparedBeginnings(newer.checkpoint, second, first), "BadLength")
	found, err := weoldrin.CompareBeginnings(newer.checkpoint, first, second)
	equal(t, errors.Is(err, weoldrin.ErrBadArgument), true)
	equal(t, found, weoldrin.BeginningSame)
}

// Each comparison has a name: no proofs are known that collide.
func TestNamesOfContradictions(t *testing.T) {
	for number, name := range []string{"same", "two", "one and none", "not shown", "HeadComparison(4)"} {
		equal(t, weoldrin.HeadComparison(number).String(), name)
	}
	for number, name := range []string{"same", "fork", "collision", "two lengths", "not shown", "BeginningComparison(5)"} {
		equal(t, weoldrin.BeginningComparison(number).String(), name)
	}
	equal(t, weoldrin.HeadOneAndNone, weoldrin.HeadComparison(2))
	equal(t, weoldrin.BeginningCollision, weoldrin.BeginningComparison(2))
}
