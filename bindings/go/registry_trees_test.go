package weoldrin_test

import (
	"fmt"
	"math"
	"reflect"
	"sync"
	"testing"

	"weoldrin.example/weoldrin"
	"weoldrin.example/weoldrin/records"
)

// The trees of a registry beside those that the definitions give, and what they refuse.

func logNumber(number int) string {
	return records.SHA256Text([]byte(fmt.Sprint("log ", number)))
}

func recordNumber(number int) string {
	return records.SHA256Text([]byte(fmt.Sprint("record ", number)))
}

// beside is an id that has another bit at a depth.
func beside(id string, depth int) string {
	other := hashOf(id)
	other[depth/8] ^= 0x80 >> (depth % 8)
	return textOf(other)
}

// given is a proof, or the word none where there is none.
func given(proof string, found bool, err error) string {
	if err != nil {
		panic(err)
	}
	if !found && proof == "" {
		return "none"
	}
	return proof
}

// both are the trees of the library and those of the definitions, which are pushed to at once.
type both struct {
	trees  *weoldrin.RegistryTrees
	wanted *reference
	leaves [][2]string
}

func newBoth() *both {
	return &both{trees: must(weoldrin.NewRegistryTrees()), wanted: newReference()}
}

func (b *both) push(t *testing.T, logID, recordID string) {
	t.Helper()
	equal(t, must(b.trees.Push(logID, recordID)), uint64(len(b.leaves)))
	b.wanted.push(logID, recordID)
	b.leaves = append(b.leaves, [2]string{logID, recordID})
}

// haveSameRoots fails a test where they have another length, or other roots.
func (b *both) haveSameRoots(t *testing.T, timestamp uint64) {
	t.Helper()
	length := uint64(len(b.leaves))
	equal(t, must(b.trees.Len()), length)
	equal(t, must(b.trees.Checkpoint(timestamp)), weoldrin.Checkpoint{
		LogRoot: b.wanted.logRoot(len(b.leaves)), LogLength: length, MapRoot: b.wanted.mapRoot(), Timestamp: timestamp,
	})
}

// haveSameLog fails a test where they give other proofs of a leaf or of a beginning, where one does not hold, and where
// there are more.
func (b *both) haveSameLog(t *testing.T) {
	t.Helper()
	now := must(b.trees.Checkpoint(0))
	for place, it := range b.leaves {
		at := uint64(place)
		proof := given(b.trees.Inclusion(at))
		equal(t, proof, b.wanted.inclusion(place))
		equal(t, must(weoldrin.VerifyInclusion(it[0], it[1], at, now.LogLength, now.LogRoot, proof)), true)
	}
	for length := 0; length <= len(b.leaves); length++ {
		first, root := uint64(length), b.wanted.logRoot(length)
		proof := given(b.trees.Consistency(first))
		equal(t, proof, b.wanted.consistency(length))
		equal(t, must(weoldrin.VerifyConsistency(first, root, now.LogLength, now.LogRoot, proof)), true)
	}
	for _, past := range []uint64{now.LogLength + 1, 1 << 32, 1 << 63, math.MaxUint64} {
		equal(t, given(b.trees.Inclusion(past-1)), "none")
		equal(t, given(b.trees.Inclusion(past)), "none")
		equal(t, given(b.trees.Consistency(past)), "none")
	}
}

// haveSameHead fails a test where they say otherwise of a log, and where the proof of it does not hold.
func (b *both) haveSameHead(t *testing.T, logID string) {
	t.Helper()
	head, root := must(b.trees.Head(logID)), must(b.trees.Checkpoint(0)).MapRoot
	equal(t, head, weoldrin.Head{RecordID: b.wanted.head(logID), Proof: b.wanted.mapProof(logID)})
	if head.RecordID == "" {
		equal(t, must(weoldrin.VerifyAbsence(logID, root, head.Proof)), true)
	} else {
		equal(t, must(weoldrin.VerifyPresence(logID, head.RecordID, root, head.Proof)), true)
	}
}

// Logs that come again, in no order, and some of their records too. The logs 5 and 6 have no leaf.
func TestTreesOfAllSizes(t *testing.T) {
	b := newBoth()
	defer b.trees.Close()
	for size := 0; size <= 70; size++ {
		b.haveSameRoots(t, uint64(size))
		b.haveSameLog(t)
		b.haveSameHead(t, logNumber(size%7))
		next := logNumber(size * size * 3 / 7 % 5)
		b.push(t, next, recordNumber(size%40))
		b.haveSameHead(t, next)
	}
	for number := 0; number < 7; number++ {
		b.haveSameHead(t, logNumber(number))
		b.haveSameHead(t, beside(logNumber(number), 255))
	}
}

// The ids of these logs part at each bit: no proof on a map is longer than that of the first.
func TestLongProofsOnMaps(t *testing.T) {
	b := newBoth()
	defer b.trees.Close()
	first := logNumber(0)
	for depth := 255; depth >= 0; depth-- {
		b.push(t, beside(first, depth), recordNumber(depth))
	}
	b.haveSameHead(t, first)
	equal(t, len(must(b.trees.Head(first)).Proof), 10_968)
	b.push(t, first, recordNumber(256))
	b.haveSameRoots(t, math.MaxUint64)
	for _, id := range []string{first, beside(first, 100), logNumber(1)} {
		b.haveSameHead(t, id)
	}
	equal(t, len(must(b.trees.Head(first)).Proof), 10_968)
}

// What is pushed to other trees in between is not in these.
func TestTreesApart(t *testing.T) {
	some, others := newBoth(), newBoth()
	defer others.trees.Close()
	for number := 0; number < 9; number++ {
		some.push(t, logNumber(number%2), recordNumber(number))
		others.push(t, logNumber(number%3), recordNumber(number+1))
	}
	for _, it := range []*both{some, others} {
		it.haveSameRoots(t, 5)
		it.haveSameLog(t)
		it.haveSameHead(t, logNumber(2))
	}
	succeeds(t, some.trees.Close())
	others.haveSameRoots(t, 5)
}

// treesOf are the trees of so many leaves.
func treesOf(size int) *weoldrin.RegistryTrees {
	trees := must(weoldrin.NewRegistryTrees())
	for place := 0; place < size; place++ {
		must(trees.Push(logNumber(place%3), recordNumber(place)))
	}
	return trees
}

// allOf is all that trees say: of logs that have leaves and of one that has none, of each place, and past the end.
func allOf(trees *weoldrin.RegistryTrees) (all []any) {
	now := must(trees.Checkpoint(9))
	all = append(all, now, must(trees.Len()))
	for number := 0; number < 4; number++ {
		all = append(all, must(trees.Head(logNumber(number))))
	}
	for place := uint64(0); place < now.LogLength+2; place++ {
		all = append(all, given(trees.Inclusion(place)), given(trees.Consistency(place)))
	}
	return all
}

// savedOf are the bytes of so many leaves of treesOf.
func savedOf(size int) (saved []byte) {
	for place := 0; place < size; place++ {
		log, record := hashOf(logNumber(place%3)), hashOf(recordNumber(place))
		saved = append(append(saved, log[:]...), record[:]...)
	}
	return saved
}

// Trees that are made of the bytes of leaves are those to which the leaves were pushed, and go on as they do.
func TestSavedLeaves(t *testing.T) {
	for size := 0; size < 40; size++ {
		pushed, made := treesOf(size), must(weoldrin.RegistryTreesFromBytes(savedOf(size + 3)[:64*size]))
		for next := size; next < size+3; next++ {
			equal(t, reflect.DeepEqual(allOf(made), allOf(pushed)), true)
			equal(t, string(must(made.ToBytes())), string(savedOf(next)))
			equal(t, string(must(pushed.ToBytes())), string(savedOf(next)))
			equal(t, must(made.Push(logNumber(next%3), recordNumber(next))), uint64(next))
			must(pushed.Push(logNumber(next%3), recordNumber(next)))
		}
		succeeds(t, made.Close())
		succeeds(t, pushed.Close())
	}
}

// A leaf may come twice, and a head come back.
func TestSavedLeavesThatComeAgain(t *testing.T) {
	b := newBoth()
	defer b.trees.Close()
	for _, it := range [][2]int{{1, 7}, {1, 7}, {1, 8}, {2, 8}, {1, 8}, {1, 7}} {
		b.push(t, logNumber(it[0]), recordNumber(it[1]))
	}
	saved := must(b.trees.ToBytes())
	made := must(weoldrin.RegistryTreesFromBytes(saved))
	defer made.Close()
	// What was given and what was taken is not looked at again.
	copied := append([]byte{}, saved...)
	saved[0] ^= 1
	equal(t, string(must(made.ToBytes())), string(copied))
	equal(t, reflect.DeepEqual(allOf(made), allOf(b.trees)), true)
	other := &both{trees: made, wanted: b.wanted, leaves: b.leaves}
	other.haveSameRoots(t, 3)
	other.haveSameLog(t)
	for number := 0; number < 4; number++ {
		other.haveSameHead(t, logNumber(number))
	}
}

// Bytes that are no multiple of 64 are no leaves.
func TestBytesOfNoLeaves(t *testing.T) {
	for _, length := range []int{1, 31, 32, 63, 65, 127, 640 + 32} {
		trees, err := weoldrin.RegistryTreesFromBytes(make([]byte, length))
		isRefused(t, err, weoldrin.ErrBadArgument, "BadLength")
		equal(t, trees == nil, true)
	}
	none := must(weoldrin.RegistryTreesFromBytes(nil))
	defer none.Close()
	equal(t, must(none.Len()), 0)
	equal(t, len(must(none.ToBytes())), 0)
}

// A push that is refused leaves all as it was.
func TestTextsOfNoID(t *testing.T) {
	for _, size := range []int{0, 1, 7} {
		trees, more := treesOf(size), treesOf(size+1)
		before := allOf(trees)
		log, record := logNumber(size%3), recordNumber(size)
		for _, wrong := range noHashes {
			for _, ids := range [][2]string{{wrong, record}, {log, wrong}, {wrong, wrong}} {
				place, err := trees.Push(ids[0], ids[1])
				isRefused(t, err, weoldrin.ErrBadArgument, "BadText")
				equal(t, place, 0)
			}
			head, err := trees.Head(wrong)
			isRefused(t, err, weoldrin.ErrBadArgument, "BadText")
			equal(t, head, weoldrin.Head{})
			equal(t, reflect.DeepEqual(allOf(trees), before), true)
		}
		equal(t, must(trees.Push(log, record)), uint64(size))
		equal(t, reflect.DeepEqual(allOf(trees), allOf(more)), true)
		succeeds(t, trees.Close())
		succeeds(t, more.Close())
	}
}

// An id is read in either case, and told in lower case.
func TestCasesOfIDs(t *testing.T) {
	trees, others := treesOf(1), must(weoldrin.NewRegistryTrees())
	defer trees.Close()
	defer others.Close()
	must(others.Push(upper(logNumber(0)), upper(recordNumber(0))))
	equal(t, must(others.Checkpoint(0)), must(trees.Checkpoint(0)))
	for _, id := range []string{logNumber(0), upper(logNumber(0))} {
		equal(t, must(others.Head(id)), must(trees.Head(logNumber(0))))
		equal(t, must(others.Head(id)).RecordID, recordNumber(0))
	}
}

// Trees that are not open say so, whether they were closed or never made, and however often they are closed.
func TestClosedTrees(t *testing.T) {
	for _, trees := range []*weoldrin.RegistryTrees{treesOf(3), {}} {
		for times := 0; times < 3; times++ {
			succeeds(t, trees.Close())
			_, err := trees.Push(logNumber(0), recordNumber(0))
			isRefused(t, err, weoldrin.ErrNotOpen, "NotOpen")
			_, err = trees.Push("", "")
			isRefused(t, err, weoldrin.ErrNotOpen, "NotOpen")
			_, err = trees.Len()
			isRefused(t, err, weoldrin.ErrNotOpen, "NotOpen")
			now, err := trees.Checkpoint(7)
			isRefused(t, err, weoldrin.ErrNotOpen, "NotOpen")
			equal(t, now, weoldrin.Checkpoint{})
			_, found, err := trees.Inclusion(0)
			isRefused(t, err, weoldrin.ErrNotOpen, "NotOpen")
			equal(t, found, false)
			_, found, err = trees.Consistency(0)
			isRefused(t, err, weoldrin.ErrNotOpen, "NotOpen")
			equal(t, found, false)
			_, err = trees.Head(logNumber(0))
			isRefused(t, err, weoldrin.ErrNotOpen, "NotOpen")
			saved, err := trees.ToBytes()
			isRefused(t, err, weoldrin.ErrNotOpen, "NotOpen")
			equal(t, saved == nil, true)
		}
	}
}

// Many goroutines push and look: each place is given once, and a checkpoint is of one moment.
func TestTreesOfManyGoroutines(t *testing.T) {
	const workers, each = 8, 40
	trees := must(weoldrin.NewRegistryTrees())
	defer trees.Close()
	var running sync.WaitGroup
	var lock sync.Mutex
	leaves, seen := map[uint64][2]string{}, []weoldrin.Checkpoint{}
	for worker := 0; worker < workers; worker++ {
		running.Add(1)
		go func(worker int) {
			defer running.Done()
			for number := 0; number < each; number++ {
				log, record := logNumber(worker%3), recordNumber(each*worker+number)
				place, now := must(trees.Push(log, record)), must(trees.Checkpoint(0))
				lock.Lock()
				leaves[place] = [2]string{log, record}
				seen = append(seen, now)
				lock.Unlock()
			}
		}(worker)
	}
	running.Wait()
	equal(t, len(leaves), workers*each)
	wanted := newReference()
	mapRoots := []string{wanted.mapRoot()}
	for place := uint64(0); place < workers*each; place++ {
		wanted.push(leaves[place][0], leaves[place][1])
		mapRoots = append(mapRoots, wanted.mapRoot())
	}
	for _, now := range append(seen, must(trees.Checkpoint(0))) {
		equal(t, now.LogRoot, wanted.logRoot(int(now.LogLength)))
		equal(t, now.MapRoot, mapRoots[now.LogLength])
	}
	equal(t, must(trees.Len()), workers*each)
}

// Who closes trees that others use stops none of these halfway.
func TestTreesThatAreClosedInUse(t *testing.T) {
	for times := 0; times < 20; times++ {
		trees := treesOf(3)
		wanted := must(trees.Checkpoint(0))
		var running sync.WaitGroup
		for worker := 0; worker < 4; worker++ {
			running.Add(2)
			go func() {
				defer running.Done()
				now, err := trees.Checkpoint(0)
				for ; err == nil; now, err = trees.Checkpoint(0) {
					equal(t, now, wanted)
				}
				isRefused(t, err, weoldrin.ErrNotOpen, "NotOpen")
			}()
			go func() {
				defer running.Done()
				succeeds(t, trees.Close())
			}()
		}
		running.Wait()
	}
}
