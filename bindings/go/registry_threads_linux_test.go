package weoldrin

import (
	"fmt"
	"os"
	"runtime"
	"strings"
	"sync"
	"syscall"
	"testing"
)

// treesOf are trees of one leaf.
func treesOf(t *testing.T) *RegistryTrees {
	t.Helper()
	trees, err := NewRegistryTrees()
	if err != nil {
		t.Fatal(err)
	}
	id := "sha256:" + strings.Repeat("07", 32)
	if place, err := trees.Push(id, id); err != nil || place != 0 {
		t.Fatal(place, err)
	}
	return trees
}

// The calls of trees are made on one thread, which is no caller's and no other trees', however many call.
func TestThreads(t *testing.T) {
	var running sync.WaitGroup
	var lock sync.Mutex
	threads := map[*RegistryTrees]map[int]bool{treesOf(t): {}, treesOf(t): {}}
	callers := map[int]bool{}
	for worker := 0; worker < 8; worker++ {
		running.Add(1)
		go func() {
			defer running.Done()
			runtime.LockOSThread()
			defer runtime.UnlockOSThread()
			for times := 0; times < 200; times++ {
				for trees, seen := range threads {
					_ = trees.together(func(*rawRegistry) error {
						lock.Lock()
						defer lock.Unlock()
						seen[syscall.Gettid()] = true
						return nil
					})
				}
			}
			lock.Lock()
			defer lock.Unlock()
			callers[syscall.Gettid()] = true
		}()
	}
	running.Wait()
	all := map[int]bool{}
	for trees, seen := range threads {
		if len(seen) != 1 {
			t.Errorf("%d threads", len(seen))
		}
		for thread := range seen {
			if all[thread] || callers[thread] {
				t.Error("a thread is another's too")
			}
			all[thread] = true
		}
		_ = trees.Close()
	}
}

// resident is how many KB of memory this process has.
func resident(t *testing.T) int {
	t.Helper()
	status, err := os.ReadFile("/proc/self/status")
	_, said, _ := strings.Cut(string(status), "VmRSS:")
	var size int
	if _, failed := fmt.Sscan(said, &size); err != nil || failed != nil {
		t.Fatal(err, failed)
	}
	return size
}

// Trees that are closed give their memory back: those of no leaf take 8 KB.
func TestMemoryOfClosedTrees(t *testing.T) {
	_ = treesOf(t).Close()
	before := resident(t)
	for times := 0; times < 3000; times++ {
		_ = treesOf(t).Close()
	}
	if more := resident(t) - before; more > 12_000 {
		t.Errorf("%d KB more", more)
	}
}
