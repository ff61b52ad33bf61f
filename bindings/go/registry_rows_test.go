package weoldrin_test

import (
	"encoding/hex"
	"encoding/json"
	"errors"
	"fmt"
	"strconv"
	"strings"
	"testing"

	"weoldrin.example/weoldrin"
	"weoldrin.example/weoldrin/internal/rows"
)

// checkpointOf is the checkpoint that four words say.
func checkpointOf(words []string) weoldrin.Checkpoint {
	length, timestamp := must(strconv.ParseUint(words[1], 10, 64)), must(strconv.ParseUint(words[3], 10, 64))
	return weoldrin.Checkpoint{LogRoot: words[0], LogLength: length, MapRoot: words[2], Timestamp: timestamp}
}

// contentOf is what is signed of a checkpoint, without its prefix, in hex.
func contentOf(words string) (string, error) {
	message, err := checkpointOf(strings.Fields(words)).Message()
	return hex.EncodeToString([]byte(strings.TrimPrefix(string(message), "WARG-CHECKPOINT-SIGNATURE-V0:"))), err
}

// registryAnswers are the answers to the rows that begin with these words, by the words behind them.
var registryAnswers = map[string]func(words string) (string, error){
	"operator-log-id": func(string) (string, error) { return weoldrin.LogID(weoldrin.Operator, "") },
	"package-log-id ": func(name string) (string, error) { return weoldrin.LogID(weoldrin.Package, name) },
	"parse package-name ": func(word string) (string, error) {
		_, err := weoldrin.LogID(weoldrin.Package, rows.TextOf(word))
		return word, err
	},
	"bytes log-leaf ": func(words string) (string, error) {
		ids := strings.Fields(words)
		leaf, err := weoldrin.Leaf(ids[0], ids[1])
		return hex.EncodeToString(leaf), err
	},
	"bytes timestamped-checkpoint ": contentOf,
	"encode-checkpoint ":            contentOf,
	"from-json timestamped-checkpoint ": func(text string) (string, error) {
		var c weoldrin.Checkpoint
		if err := json.Unmarshal([]byte(text), &c); err != nil {
			return "", err
		}
		// The texts of the roots are judged here.
		_, err := c.Message()
		return fmt.Sprint(c.LogRoot, " ", c.LogLength, " ", c.MapRoot, " ", c.Timestamp), err
	},
}

// The rows of conformance/values on ids of logs, leaves and checkpoints with their time, whose answers are by other
// programs.
func TestRegistryRows(t *testing.T) {
	played := map[string]int{}
	for _, path := range rows.Files(t, 2, "values/*.rows") {
		blocks, err := rows.Blocks(path)
		if err != nil {
			t.Fatal(err)
		}
		for _, block := range blocks {
			row := must(rows.RowOf(block.Text))
			for topic, answer := range registryAnswers {
				if !strings.HasPrefix(row.Question+" ", topic) {
					continue
				}
				words := strings.TrimPrefix(row.Question, topic)
				seen, err := answer(words)
				seen = "= " + seen
				var told *weoldrin.Error
				if errors.As(err, &told) {
					// The fault of a name that no log has is told of the name.
					named := "InvalidPackageName " + rows.Quoted(rows.TextOf(words))
					seen = "! " + map[bool]string{true: named, false: told.Name}[told.Name == "BadName"]
				}
				if seen != row.Wanted {
					t.Errorf("%s:%d: seen %s, wanted %s", path, block.Number, seen, row.Wanted)
				}
				played[topic]++
			}
		}
	}
	all := 0
	for _, it := range played {
		all += it
	}
	fmt.Printf("%d rows of registries played\n", all)
	equal(t, len(played), len(registryAnswers))
}
