package weoldrin_test

import (
	"fmt"
	"time"

	"weoldrin.example/weoldrin"
	"weoldrin.example/weoldrin/records"
)

// pushed is the checkpoint behind a leaf that is pushed, and the proof that the leaf stands under it at a place.
func pushed(trees *weoldrin.RegistryTrees, logID, recordID string) (weoldrin.Checkpoint, uint64, string, error) {
	place, err := trees.Push(logID, recordID)
	if err != nil {
		return weoldrin.Checkpoint{}, 0, "", err
	}
	proof, _, err := trees.Inclusion(place)
	if err != nil {
		return weoldrin.Checkpoint{}, 0, "", err
	}
	checkpoint, err := trees.Checkpoint(uint64(time.Now().Unix()))
	return checkpoint, place, proof, err
}

// A leaf that is pushed is proved under the checkpoint behind it.
func ExampleRegistryTrees() {
	trees, err := weoldrin.NewRegistryTrees()
	if err != nil {
		fmt.Println(err)
		return
	}
	defer trees.Close()
	record := records.SHA256Text([]byte("a record"))
	for _, name := range []string{"example:math", "example:text"} {
		log, err := weoldrin.LogID(weoldrin.Package, name)
		if err != nil {
			fmt.Println(err)
			return
		}
		now, place, proof, err := pushed(trees, log, record)
		if err != nil {
			fmt.Println(err)
			return
		}
		fmt.Println(weoldrin.VerifyInclusion(log, record, place, now.LogLength, now.LogRoot, proof))
	}
	// Output:
	// true <nil>
	// true <nil>
}
