package weoldrin

import (
	"runtime"
	"strings"
	"sync/atomic"
	"testing"
	"time"
)

// However a log was made, it is closed when it is forgotten.
func TestForgottenLogs(t *testing.T) {
	const count = 100
	made := map[string]func() (*Log, error){
		"NewPackageLog":              func() (*Log, error) { it, err := NewPackageLog(); return &it.Log, err },
		"NewOperatorLog":             func() (*Log, error) { it, err := NewOperatorLog(); return &it.Log, err },
		"PackageLogFromJSON":         func() (*Log, error) { it, err := PackageLogFromJSON("{}"); return &it.Log, err },
		"PackageLogFromJSONCounted":  func() (*Log, error) { it, err := PackageLogFromJSONCounted("{}", 0); return &it.Log, err },
		"OperatorLogFromJSONCounted": func() (*Log, error) { it, err := OperatorLogFromJSONCounted("{}", 0); return &it.Log, err },
		"OperatorLogFromJSON":        func() (*Log, error) { it, err := OperatorLogFromJSON("{}"); return &it.Log, err },
	}
	for name, one := range made {
		t.Run(name, func(t *testing.T) {
			before := atomic.LoadUint64(&forgottenLogs)
			for it := 0; it < count; it++ {
				if log, err := one(); err != nil || !bool(log.raw.is_open) {
					t.Fatal("a log was not opened", err)
				}
			}
			for deadline := time.Now().Add(30 * time.Second); atomic.LoadUint64(&forgottenLogs)-before < count; {
				if time.Now().After(deadline) {
					t.Fatalf("%d of %d logs were closed", atomic.LoadUint64(&forgottenLogs)-before, count)
				}
				runtime.GC()
				time.Sleep(time.Millisecond)
			}
		})
	}
}

// serving is how many goroutines make the calls of trees.
func serving() int {
	stacks := make([]byte, 1<<20)
	return strings.Count(string(stacks[:runtime.Stack(stacks, true)]), "weoldrin.serve(")
}

// comeTo fails a test where there come to be no fewer such goroutines than so many.
func comeTo(t *testing.T, count int) {
	t.Helper()
	for deadline := time.Now().Add(30 * time.Second); serving() > count; {
		if time.Now().After(deadline) {
			t.Fatalf("%d goroutines, wanted %d", serving(), count)
		}
		runtime.GC()
		time.Sleep(time.Millisecond)
	}
}

// Trees of a registry have a goroutine each, which ends when they are closed or forgotten.
func TestForgottenTrees(t *testing.T) {
	const count = 100
	if _, err := RegistryTreesFromBytes([]byte{1}); err == nil {
		t.Fatal("a byte is taken for leaves")
	}
	comeTo(t, 0)
	kept := make([]*RegistryTrees, count)
	for place := range kept {
		trees, err := NewRegistryTrees()
		if place%2 == 1 {
			trees, err = RegistryTreesFromBytes(make([]byte, 64))
		}
		if err != nil {
			t.Fatal(err)
		}
		kept[place] = trees
	}
	for _, it := range kept[:count/2] {
		_ = it.Close()
	}
	comeTo(t, count/2)
	if serving() < count/2 {
		t.Fatal("trees that are in use were closed")
	}
	runtime.KeepAlive(kept)
	comeTo(t, 0)
}
