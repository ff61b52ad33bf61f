package weoldrin_test

import (
	"bytes"
	"crypto/sha256"
	"encoding/base64"
	"encoding/hex"
	"math/bits"
	"sort"
	"strings"
)

// The trees of a registry by their definitions alone: RFC 9162, section 2.1, and docs/FORMATS.md.

type hash = [sha256.Size]byte

// hashed is the hash of bytes that stand in a row.
func hashed(parts ...[]byte) hash {
	return sha256.Sum256(bytes.Join(parts, nil))
}

// hashOf are the bytes of the text of a hash.
func hashOf(text string) (it hash) {
	copy(it[:], must(hex.DecodeString(strings.TrimPrefix(text, "sha256:"))))
	return it
}

// textOf is the text of a hash.
func textOf(it hash) string {
	return "sha256:" + hex.EncodeToString(it[:])
}

// proofText is the text of hashes in a row, behind other bytes.
func proofText(before []byte, hashes []hash) string {
	for _, it := range hashes {
		before = append(before, it[:]...)
	}
	return base64.StdEncoding.EncodeToString(before)
}

// bit is the bit of an id that says on which side it is below so many bits.
func bit(id hash, depth int) byte {
	return id[depth/8] >> (7 - depth%8) & 1
}

// shared is how many bits two ids share, up to the first that they have otherwise.
func shared(left, right hash) int {
	for place := range left {
		if it := left[place] ^ right[place]; it != 0 {
			return 8*place + bits.LeadingZeros8(it)
		}
	}
	return 256
}

// head is what the map has of a log.
type head struct {
	logID    hash
	recordID string
	leaf     hash
}

// reference are the leaves that were pushed: the hashes of the log's, and the heads in the order of their logs' ids.
type reference struct {
	leaves []hash
	heads  []head
	// The roots of empty subtrees by their heights.
	empty [257]hash
	// The roots that were worked out, by the places of the first leaf and behind the last.
	roots map[[2]int]hash
}

func newReference() *reference {
	r := &reference{roots: map[[2]int]hash{}}
	r.empty[0] = hashed()
	for height := 1; height <= 256; height++ {
		r.empty[height] = inner(r.empty[height-1], r.empty[height-1])
	}
	return r
}

// inner is the hash of a node.
func inner(left, right hash) hash {
	return hashed([]byte{1}, left[:], right[:])
}

func (r *reference) push(logID, recordID string) {
	r.leaves = append(r.leaves, hashed([]byte("\x00WARG-LOG-LEAF-V0"), prefixed(logID), prefixed(recordID)))
	id := hashOf(logID)
	it := head{id, recordID, hashed([]byte("\x00WARG-MAP-LEAF-V0"), prefixed(recordID))}
	for place := range r.heads {
		if r.heads[place].logID == id {
			r.heads[place] = it
			return
		}
	}
	r.heads = append(r.heads, it)
	sort.Slice(r.heads, func(i, j int) bool { return bytes.Compare(r.heads[i].logID[:], r.heads[j].logID[:]) < 0 })
}

// logRoot is the text of the root of the log's first leaves.
func (r *reference) logRoot(length int) string {
	return textOf(r.root(0, length))
}

// mapRoot is the text of the root of the map.
func (r *reference) mapRoot() string {
	return textOf(r.subtree(256, r.heads))
}

// head is the id of a log's last record.
func (r *reference) head(logID string) string {
	for _, it := range r.heads {
		if it.logID == hashOf(logID) {
			return it.recordID
		}
	}
	return ""
}

// inclusion is the text of the path of a leaf.
func (r *reference) inclusion(place int) string {
	return proofText(nil, r.path(place, 0, len(r.leaves)))
}

// consistency is the text of the proof that the log begins with its first leaves.
func (r *reference) consistency(length int) string {
	if length == 0 {
		return ""
	}
	return proofText(nil, r.subproof(length, 0, len(r.leaves), true))
}

// mapProof is the text of the path of a log's place in the map, in its short form.
func (r *reference) mapProof(logID string) string {
	id, isEmpty := hashOf(logID), make([]byte, 32)
	var siblings []hash
	for height := 0; height < 256; height++ {
		var beside []head
		for _, it := range r.heads {
			if shared(it.logID, id) == 255-height {
				beside = append(beside, it)
			}
		}
		if len(beside) == 0 {
			isEmpty[height/8] |= 0x80 >> (height % 8)
		} else {
			siblings = append(siblings, r.subtree(height, beside))
		}
	}
	return proofText(isEmpty, siblings)
}

// split is the greatest power of two below a count.
func split(count int) int {
	return 1 << (bits.Len(uint(count-1)) - 1)
}

// root is the root of the leaves from a place to another.
func (r *reference) root(from, to int) hash {
	known, found := r.roots[[2]int{from, to}]
	if found {
		return known
	}
	var it hash
	switch count := to - from; count {
	case 0:
		it = hashed()
	case 1:
		it = r.leaves[from]
	default:
		middle := from + split(count)
		it = inner(r.root(from, middle), r.root(middle, to))
	}
	r.roots[[2]int{from, to}] = it
	return it
}

func (r *reference) path(place, from, to int) []hash {
	if to-from == 1 {
		return nil
	}
	middle := from + split(to-from)
	if place < middle {
		return append(r.path(place, from, middle), r.root(middle, to))
	}
	return append(r.path(place, middle, to), r.root(from, middle))
}

// subproof is that of the first leaves, which are known where they are all of the tree that the proof is for.
func (r *reference) subproof(length, from, to int, isKnown bool) []hash {
	if length == to-from {
		if isKnown {
			return nil
		}
		return []hash{r.root(from, to)}
	}
	count := split(to - from)
	middle := from + count
	if length <= count {
		return append(r.subproof(length, from, middle, isKnown), r.root(middle, to))
	}
	return append(r.subproof(length-count, middle, to, false), r.root(from, middle))
}

// subtree is the root of the subtree of a height that has these logs.
func (r *reference) subtree(height int, heads []head) hash {
	switch {
	case len(heads) == 0:
		return r.empty[height]
	case height == 0:
		return heads[0].leaf
	}
	middle := sort.Search(len(heads), func(place int) bool { return bit(heads[place].logID, 256-height) == 1 })
	return inner(r.subtree(height-1, heads[:middle]), r.subtree(height-1, heads[middle:]))
}
