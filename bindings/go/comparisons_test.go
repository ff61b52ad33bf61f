package weoldrin_test

import (
	"errors"
	"math"
	"strings"
	"testing"

	"weoldrin.example/weoldrin"
)

// What two checkpoints of a registry are to each other, and two leaves at one place of its log.

// At this place a forked registry has another leaf, of a log that has no other one.
const parted = 4

// made is a registry of some leaves by its definitions.
type made struct {
	*reference
	leaves     [][2]string
	checkpoint weoldrin.Checkpoint
}

func newMade(size int, isForked bool) made {
	it := made{reference: newReference()}
	for place := 0; place < size; place++ {
		log, record := logNumber(place%3), recordNumber(place)
		if place == parted {
			log = logNumber(parted)
			if isForked {
				record = recordNumber(-1)
			}
		}
		it.push(log, record)
		it.leaves = append(it.leaves, [2]string{log, record})
	}
	it.checkpoint = weoldrin.Checkpoint{LogRoot: it.logRoot(size), LogLength: uint64(size), MapRoot: it.mapRoot()}
	return it
}

func (m made) shown(place int) weoldrin.ShownLeaf {
	it := m.leaves[place]
	return weoldrin.ShownLeaf{Checkpoint: m.checkpoint, LogID: it[0], RecordID: it[1], Proof: m.inclusion(place)}
}

// compared is the answer of a comparison of checkpoints, or the name of its error.
func compared(older, newer weoldrin.Checkpoint, proof string) string {
	found, err := weoldrin.CompareCheckpoints(older, newer, proof)
	if err != nil {
		return err.(*weoldrin.Error).Name
	}
	return found.String()
}

// comparedLeaves is the answer of a comparison of leaves, or the name of its error.
func comparedLeaves(place uint64, older, newer weoldrin.ShownLeaf) string {
	found, err := weoldrin.CompareLeaves(place, older, newer)
	if err != nil {
		return err.(*weoldrin.Error).Name
	}
	return found.String()
}

// Of one registry: the same, one that goes on, and one that goes back.
func TestCheckpointsOfOneRegistry(t *testing.T) {
	for first := 0; first <= 9; first++ {
		older := newMade(first, false).checkpoint
		for second := 0; second <= 9; second++ {
			newer, proof, wanted := newMade(second, false), "", "goes back"
			if first <= second {
				proof, wanted = newer.consistency(first), "goes on"
			}
			if first == second {
				wanted = "same"
			}
			equal(t, compared(older, newer.checkpoint, proof), wanted)
		}
	}
}

// The time is not looked at, and neither is whether digits are capitals, or the proof.
func TestCheckpointsThatAreTheSame(t *testing.T) {
	one := newMade(9, false)
	other := weoldrin.Checkpoint{
		LogRoot: upper(one.checkpoint.LogRoot), LogLength: 9, MapRoot: upper(one.checkpoint.MapRoot),
		Timestamp: math.MaxUint64,
	}
	for _, proof := range []string{"", one.consistency(4)} {
		equal(t, compared(one.checkpoint, other, proof), "same")
		equal(t, compared(other, one.checkpoint, proof), "same")
	}
}

// Of one length, by the root of the log, of the map, or of both; no proof helps.
func TestCheckpointsThatFork(t *testing.T) {
	one, other := newMade(9, false), newMade(9, true)
	otherMap, otherLog := one.checkpoint, one.checkpoint
	otherMap.MapRoot, otherLog.LogRoot = other.checkpoint.MapRoot, other.checkpoint.LogRoot
	for _, it := range []weoldrin.Checkpoint{otherMap, otherLog, other.checkpoint} {
		for _, proof := range []string{"", one.consistency(4)} {
			equal(t, compared(one.checkpoint, it, proof), "fork")
			equal(t, compared(it, one.checkpoint, proof), "fork")
		}
	}
	equal(t, compared(one.checkpoint, newMade(8, true).checkpoint, ""), "goes back")
}

// A log that goes on without a proof of it, and one that does not.
func TestCheckpointsThatAreNotShown(t *testing.T) {
	older, newer, fork := newMade(6, false).checkpoint, newMade(9, false), newMade(9, true)
	proof := newer.consistency(6)
	equal(t, compared(older, newer.checkpoint, proof), "goes on")
	for _, it := range []string{"", changed(proof), newer.consistency(7), fork.consistency(6)} {
		equal(t, compared(older, newer.checkpoint, it), "not shown")
	}
	for _, it := range []string{"", proof, fork.consistency(6)} {
		equal(t, compared(older, fork.checkpoint, it), "not shown")
	}
	equal(t, compared(newMade(parted, false).checkpoint, fork.checkpoint, fork.consistency(parted)), "goes on")
	last := newer.checkpoint
	last.LogLength = math.MaxUint64
	equal(t, compared(newer.checkpoint, last, ""), "not shown")
	equal(t, compared(last, newer.checkpoint, ""), "goes back")
	equal(t, compared(last, last, ""), "same")
}

// Texts of no form, of each of the roots and of the proof.
func TestCheckpointsOfNoForm(t *testing.T) {
	one, other := newMade(9, false).checkpoint, newMade(8, false).checkpoint
	for _, text := range noHashes {
		wrongLog, wrongMap := other, other
		wrongLog.LogRoot, wrongMap.MapRoot = text, text
		for _, wrong := range []weoldrin.Checkpoint{wrongLog, wrongMap} {
			equal(t, compared(wrong, one, ""), "BadText")
			equal(t, compared(one, wrong, ""), "BadText")
		}
	}
	for text, name := range map[string]string{"A": "BadBase64", "AA==": "BadLength", strings.Repeat("A", 2733): "TooLong"} {
		equal(t, compared(other, one, text), name)
		found, err := weoldrin.CompareCheckpoints(other, one, text)
		equal(t, errors.Is(err, weoldrin.ErrBadArgument), true)
		equal(t, found, weoldrin.CheckpointSame)
	}
}

// Equal leaves, at each place that both logs have, in either order.
func TestLeavesThatAreTheSame(t *testing.T) {
	longer := newMade(9, false)
	for length := 1; length < 9; length++ {
		shorter := newMade(length, false)
		for place := 0; place < length; place++ {
			one, other := shorter.shown(place), longer.shown(place)
			equal(t, comparedLeaves(uint64(place), one, other), "same")
			equal(t, comparedLeaves(uint64(place), other, one), "same")
		}
	}
	one := longer.shown(4)
	capitals := one
	capitals.LogID, capitals.RecordID = upper(one.LogID), upper(one.RecordID)
	equal(t, comparedLeaves(4, one, capitals), "same")
}

// Leaves that differ, under checkpoints of one length and of two.
func TestLeavesThatFork(t *testing.T) {
	fork := newMade(9, true)
	for length := parted + 1; length <= 9; length++ {
		own := newMade(length, false)
		equal(t, comparedLeaves(parted, own.shown(parted), fork.shown(parted)), "fork")
		equal(t, comparedLeaves(parted, fork.shown(parted), own.shown(parted)), "fork")
		equal(t, comparedLeaves(3, own.shown(3), fork.shown(3)), "same")
	}
}

// Leaves of which one is not shown, or neither. The map of a checkpoint is not looked at.
func TestLeavesThatAreNotShown(t *testing.T) {
	one, other := newMade(6, false).shown(4), newMade(9, true).shown(4)
	all := make([]weoldrin.ShownLeaf, 6)
	for place := range all {
		all[place] = one
	}
	all[0].Proof, all[1].Proof, all[2].Proof = "", changed(one.Proof), other.Proof
	all[3].RecordID, all[4].LogID, all[5].Checkpoint = other.RecordID, other.RecordID, other.Checkpoint
	for _, wrong := range all {
		for _, right := range []weoldrin.ShownLeaf{one, other, wrong} {
			equal(t, comparedLeaves(4, wrong, right), "not shown")
			equal(t, comparedLeaves(4, right, wrong), "not shown")
		}
	}
	for _, place := range []uint64{3, 5, 6, 1 << 63, math.MaxUint64} {
		equal(t, comparedLeaves(place, one, other), "not shown")
	}
	noMap := one
	noMap.Checkpoint.MapRoot = "none"
	equal(t, comparedLeaves(4, noMap, other), "fork")
}

// Texts of no form, of each side; the fault of the older leaf's proof comes first.
func TestLeavesOfNoForm(t *testing.T) {
	one, other := newMade(6, false).shown(4), newMade(9, true).shown(4)
	for _, text := range noHashes {
		all := []weoldrin.ShownLeaf{one, one, one}
		all[0].LogID, all[1].RecordID, all[2].Checkpoint.LogRoot = text, text, text
		for _, wrong := range all {
			equal(t, comparedLeaves(4, wrong, other), "BadText")
			equal(t, comparedLeaves(4, other, wrong), "BadText")
		}
	}
	for text, name := range map[string]string{"A": "BadBase64", "AA==": "BadLength", strings.Repeat("A", 2733): "TooLong"} {
		wrong := one
		wrong.Proof = text
		equal(t, comparedLeaves(4, wrong, other), name)
		equal(t, comparedLeaves(4, other, wrong), name)
	}
	first, second := one, one
	first.Proof, second.Proof = "A", "AA=="
	equal(t, comparedLeaves(4, first, second), "BadBase64")
	equal(t, comparedLeaves(4, second, first), "BadLength")
}

// Each comparison has a name.
func TestNamesOfComparisons(t *testing.T) {
	for number, name := range []string{"same", "goes on", "goes back", "fork", "not shown", "CheckpointComparison(5)"} {
		equal(t, weoldrin.CheckpointComparison(number).String(), name)
	}
	for number, name := range []string{"same", "fork", "not shown", "LeafComparison(3)"} {
		equal(t, weoldrin.LeafComparison(number).String(), name)
	}
	equal(t, weoldrin.CheckpointFork, weoldrin.CheckpointComparison(3))
	equal(t, weoldrin.LeafFork, weoldrin.LeafComparison(1))
}
