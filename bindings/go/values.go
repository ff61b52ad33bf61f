package weoldrin

import (
	"fmt"
	"time"
)

// Kind is a kind of logs.
type Kind uint32

const (
	// Package is the kind of the logs of packages: their releases.
	Package Kind = 0
	// Operator is the kind of the logs of a registry's operators: their namespaces.
	Operator Kind = 1
)

// String is the word of a kind: package or operator.
func (k Kind) String() string {
	switch k {
	case Package:
		return "package"
	case Operator:
		return "operator"
	default:
		return fmt.Sprintf("Kind(%d)", uint32(k))
	}
}

// KindOf is the kind of a word, package or operator.
func KindOf(word string) (Kind, error) {
	for _, it := range []Kind{Package, Operator} {
		if it.String() == word {
			return it, nil
		}
	}
	return 0, errorNamed(ErrBadArgument, "NoKind: a log is one of a package or of an operator, and none of "+word)
}

// Permission is what a key may do in a log.
type Permission string

// The permissions are those of crates/warg_permissions: `tools/release --copies` writes them.
const (
	// MayRelease is the permission to release versions, in the log of a package.
	MayRelease Permission = "release"
	// MayYank is the permission to yank versions, in the log of a package.
	MayYank Permission = "yank"
	// MayCommit is the permission to sign checkpoints, and grant and revoke permissions, in the log of operators.
	MayCommit Permission = "commit"
	// MayDefineNamespace is the permission to define namespaces, in the log of operators.
	MayDefineNamespace Permission = "defineNamespace"
	// MayImportNamespace is the permission to import namespaces from other registries, in the log of operators.
	MayImportNamespace Permission = "importNamespace"
)

// Question is what has to be verified before a record can be appended: whether the signature belongs to the message
// under the key.
type Question struct {
	// Key is the text of the signer's key: the algorithm's name, a colon, base64.
	Key string
	// Message is what was signed.
	Message []byte
	// Signature is the signature's text, in the form of the key's.
	Signature string
}

// Record is a record that a log keeps.
type Record struct {
	// Envelope is the record's envelope, written anew: it has the contents, the key id and the signature that were
	// appended, and nothing else that stood in those bytes.
	Envelope []byte
	// ID is the text of the record's id.
	ID string
}

// Release is a release, and what became of it. A time that time.Time does not reach has the right Unix and Nanosecond
// all the same.
type Release struct {
	Version string
	// RecordID is the id of the record that released it.
	RecordID string
	// By is the id of the key that signed that record.
	By string
	// Timestamp is the time of that record.
	Timestamp time.Time
	// Yanked is whether the release was yanked.
	Yanked bool
	// Content is the digest of the content, of a release that was not yanked.
	Content string
	// YankedBy is the id of the key that signed the yank.
	YankedBy string
	// YankedTimestamp is the time of the yank's record.
	YankedTimestamp time.Time
}

// Last is what is known of a log's last record beside its id.
type Last struct {
	// Timestamp is its time.
	Timestamp time.Time
	// Version is its version of the protocol.
	Version uint32
	// Count is how many records the log has, or -1 where it was resumed and not told.
	Count int
}

// Namespace is what a namespace is.
type Namespace struct {
	// Imported is whether its packages are those of another registry. Otherwise it is the registry's own.
	Imported bool
	// Registry is the name of that other registry.
	Registry string
}

// Head is the last record of a log among the leaves of a registry, and the proof of it.
type Head struct {
	// RecordID is the text of the record's id. It is empty where the log has no leaf.
	RecordID string
	// Proof is one that VerifyPresence takes, or VerifyAbsence where there is no record.
	Proof string
}

// Link is the place of an entry.
type Link struct {
	// Record is the place of the entry's record in the log, from 0.
	Record int
	// Entry is the place of the entry in its record, from 0.
	Entry int
}

// Relation is how two logs stand to each other, by the contents of their records.
type Relation uint32

const (
	// Same is of logs with equal records.
	Same Relation = 0
	// LeftIsPrefix is where the right log begins with all of the left one, and goes on.
	LeftIsPrefix Relation = 1
	// RightIsPrefix is where the left log begins with all of the right one, and goes on.
	RightIsPrefix Relation = 2
	// Fork is where both logs have a record at a place, and these differ.
	Fork Relation = 3
	// Collision is where the heads are one, and the records are not: two of them differ and have one id.
	Collision Relation = 4
)

// String is the name of a relation.
func (r Relation) String() string {
	names := []string{"same", "left is prefix", "right is prefix", "fork", "collision"}
	if int(r) < len(names) {
		return names[r]
	}
	return fmt.Sprintf("Relation(%d)", uint32(r))
}

// Comparison is how two logs compare, and where they part: two places for a collision, one place twice otherwise, and
// 0 for equal logs.
type Comparison struct {
	Relation Relation
	Left     int
	Right    int
}

// CheckpointComparison is how one checkpoint of a registry compares with an older one.
type CheckpointComparison uint32

const (
	// CheckpointSame is where the lengths and both roots are equal.
	CheckpointSame CheckpointComparison = 0
	// CheckpointGoesOn is where the newer log is longer, and the proof shows that it begins with the older one.
	CheckpointGoesOn CheckpointComparison = 1
	// CheckpointGoesBack is where the newer log is shorter than the older one: a rollback.
	CheckpointGoesBack CheckpointComparison = 2
	// CheckpointFork is where the lengths are equal and a root differs: no list of leaves has both. Two signatures show
	// that the registry forked.
	CheckpointFork CheckpointComparison = 3
	// CheckpointNotShown is where the newer log is longer, and the proof does not show that it begins with the older one.
	CheckpointNotShown CheckpointComparison = 4
)

// String is the name of a comparison.
func (c CheckpointComparison) String() string {
	names := []string{"same", "goes on", "goes back", "fork", "not shown"}
	if int(c) < len(names) {
		return names[c]
	}
	return fmt.Sprintf("CheckpointComparison(%d)", uint32(c))
}

// LeafComparison is how the leaves compare that are shown at one place of a registry's log under two checkpoints.
type LeafComparison uint32

const (
	// LeafSame is where both proofs hold, and the leaves are one.
	LeafSame LeafComparison = 0
	// LeafFork is where both proofs hold, and the leaves differ: neither log begins with the other one, or two strings
	// collide.
	LeafFork LeafComparison = 1
	// LeafNotShown is where one of the proofs does not hold.
	LeafNotShown LeafComparison = 2
)

// String is the name of a comparison.
func (c LeafComparison) String() string {
	names := []string{"same", "fork", "not shown"}
	if int(c) < len(names) {
		return names[c]
	}
	return fmt.Sprintf("LeafComparison(%d)", uint32(c))
}

// HeadComparison is how two answers about the last record of one log compare that are shown under one root of a
// registry's map.
type HeadComparison uint32

const (
	// HeadSame is where both proofs hold, and the answers are one: one record, or none.
	HeadSame HeadComparison = 0
	// HeadTwo is where both proofs hold, of two records: two strings collide.
	HeadTwo HeadComparison = 1
	// HeadOneAndNone is where both proofs hold, of a record and of none: two strings collide.
	HeadOneAndNone HeadComparison = 2
	// HeadNotShown is where one of the proofs does not hold.
	HeadNotShown HeadComparison = 3
)

// String is the name of a comparison.
func (c HeadComparison) String() string {
	names := []string{"same", "two", "one and none", "not shown"}
	if int(c) < len(names) {
		return names[c]
	}
	return fmt.Sprintf("HeadComparison(%d)", uint32(c))
}

// BeginningComparison is how two checkpoints of a registry compare that the log of a newer one is shown to begin with.
type BeginningComparison uint32

const (
	// BeginningSame is where both proofs hold, and the lengths and both roots are equal.
	BeginningSame BeginningComparison = 0
	// BeginningFork is where both proofs hold, the lengths and the logs' roots are equal, and the maps' roots differ: no
	// list of leaves has both. Two signatures show that the registry forked.
	BeginningFork BeginningComparison = 1
	// BeginningCollision is where both proofs hold, the lengths are equal, and the logs' roots differ: two strings
	// collide.
	BeginningCollision BeginningComparison = 2
	// BeginningTwoLengths is where both proofs hold, and the lengths differ: nothing is said against the two.
	BeginningTwoLengths BeginningComparison = 3
	// BeginningNotShown is where one of the proofs does not hold.
	BeginningNotShown BeginningComparison = 4
)

// String is the name of a comparison.
func (c BeginningComparison) String() string {
	names := []string{"same", "fork", "collision", "two lengths", "not shown"}
	if int(c) < len(names) {
		return names[c]
	}
	return fmt.Sprintf("BeginningComparison(%d)", uint32(c))
}
