package weoldrin_test

import (
	"fmt"
	"strconv"
	"testing"

	"weoldrin.example/weoldrin"
	"weoldrin.example/weoldrin/internal/rows"
)

// rootsAnswer is what trees of leaves answer to a row that asks for their roots or proofs, and whether it does. The
// leaves are pairs of words, behind a word for a proof. They are pushed, or trees are made of them that were saved.
func rootsAnswer(topic string, words []string, areSaved bool) (answer string, isPlayed bool) {
	trees := must(weoldrin.NewRegistryTrees())
	defer func() { trees.Close() }()
	push := func(words []string) {
		for place := 0; place < len(words); place += 2 {
			must(trees.Push(words[place], words[place+1]))
		}
		if areSaved {
			saved := must(trees.ToBytes())
			_ = trees.Close()
			trees = must(weoldrin.RegistryTreesFromBytes(saved))
		}
	}
	number := func() uint64 { return must(strconv.ParseUint(words[0], 10, 64)) }
	switch topic {
	case "log-root":
		push(words)
		return must(trees.Checkpoint(0)).LogRoot, true
	case "map-root":
		push(words)
		return must(trees.Checkpoint(0)).MapRoot, true
	case "inclusion-proof":
		push(words[1:])
		return given(trees.Inclusion(number())), true
	case "consistency-proof":
		push(words[1:])
		return given(trees.Consistency(number())), true
	case "map-proof":
		push(words[1:])
		return must(trees.Head(words[0])).Proof, true
	default:
		return "", false
	}
}

// The rows of conformance/values/transparency*.rows that ask for what a registry gives, whose answers are by other
// programs.
func TestRegistryTreesRows(t *testing.T) {
	played := 0
	for _, path := range rows.Files(t, 2, "values/transparency*.rows") {
		for _, block := range must(rows.Blocks(path)) {
			row := must(rows.RowOf(block.Text))
			words := rows.WordsOf(row.Question)
			for _, areSaved := range []bool{false, true} {
				answer, isPlayed := rootsAnswer(words[0], words[1:], areSaved)
				if !isPlayed {
					break
				}
				played++
				if seen := "= " + rows.Quoted(answer); seen != row.Wanted {
					t.Errorf("%s:%d: seen %s, wanted %s", path, block.Number, seen, row.Wanted)
				}
			}
		}
	}
	fmt.Printf("%d rows of roots and proofs played\n", played)
	if played < 2*46 {
		t.Errorf("%d rows are too few", played)
	}
}
