package weoldrin

// #include "warg.h"
import "C"

// What a registry proves of its log and its map. Roots are texts of hashes, ids are texts of ids, proofs are texts of
// base64.

const badText = "BadText: a root or an id is not the text of one"

// Leaf is the leaf of a log's record in the registry's log: the bytes that are hashed, with a zero before them.
func Leaf(logID, recordID string) ([]byte, error) {
	log, record := []byte(logID), []byte(recordID)
	leaf, _, err := filled(0, badText, func(to []byte, used *rawSize) rawStatus {
		return C.warg_leaf(at(log), size(log), at(record), size(record), at(to), size(to), used)
	})
	return leaf, err
}

// VerifyInclusion is whether the leaf of a log's record stands at a place of the registry's log, which has so many
// leaves and this root. The error is ErrBadArgument where a text is not of its form; if that is the proof's, its name
// is the fault: TooLong, BadBase64, BadLength or EmptySibling. So it is for all four calls of proofs.
//
// What an accepted proof shows is so of every log of that length and root, and of every map of that root, or two
// strings that differ have one hash. No call knows whose root it is, or how long its log is: take a log's length and
// root, and the map's root, from one signed checkpoint.
func VerifyInclusion(logID, recordID string, place, length uint64, root, proof string) (bool, error) {
	log, record, hash, text := []byte(logID), []byte(recordID), []byte(root), []byte(proof)
	status := C.warg_verify_inclusion(at(log), size(log), at(record), size(record), C.uint64_t(place), C.uint64_t(length),
		at(hash), size(hash), at(text), size(text))
	return shown(status, logTree, text)
}

// VerifyConsistency is whether the registry's log of newLength leaves begins with the one of oldLength leaves.
func VerifyConsistency(oldLength uint64, oldRoot string, newLength uint64, newRoot, proof string) (bool, error) {
	before, after, text := []byte(oldRoot), []byte(newRoot), []byte(proof)
	status := C.warg_verify_consistency(C.uint64_t(oldLength), at(before), size(before), C.uint64_t(newLength),
		at(after), size(after), at(text), size(text))
	return shown(status, logTree, text)
}

// VerifyPresence is whether the registry's map says that a log's last record is this one.
func VerifyPresence(logID, recordID, root, proof string) (bool, error) {
	log, record, hash, text := []byte(logID), []byte(recordID), []byte(root), []byte(proof)
	status := C.warg_verify_presence(at(log), size(log), at(record), size(record), at(hash), size(hash),
		at(text), size(text))
	return shown(status, mapTree, text)
}

// VerifyAbsence is whether the registry's map says nothing of a log.
func VerifyAbsence(logID, root, proof string) (bool, error) {
	log, hash, text := []byte(logID), []byte(root), []byte(proof)
	status := C.warg_verify_absence(at(log), size(log), at(hash), size(hash), at(text), size(text))
	return shown(status, mapTree, text)
}

// ShownLeaf is a leaf, and the proof that is to show it in the log of a checkpoint, as VerifyInclusion takes it. Of the
// checkpoint the length and the root of the log are looked at.
type ShownLeaf struct {
	Checkpoint Checkpoint
	LogID      string
	RecordID   string
	Proof      string
}

// CompareCheckpoints is how a checkpoint of a registry compares with an older one, by a proof as VerifyConsistency
// takes it, which is looked at where the newer log is longer, and may be the empty text elsewhere. Their times are not
// compared, and whether they are signed is for an OperatorLog to say. The error is one as VerifyInclusion returns it.
func CompareCheckpoints(older, newer Checkpoint, proof string) (CheckpointComparison, error) {
	oldLog, oldMap, text := []byte(older.LogRoot), []byte(older.MapRoot), []byte(proof)
	newLog, newMap := []byte(newer.LogRoot), []byte(newer.MapRoot)
	var found C.uint32_t
	status := C.warg_compare_checkpoints(
		C.uint64_t(older.LogLength), at(oldLog), size(oldLog), at(oldMap), size(oldMap),
		C.uint64_t(newer.LogLength), at(newLog), size(newLog), at(newMap), size(newMap),
		at(text), size(text), &found)
	if uint32(status) != ok {
		return 0, misused(status, logTree, text)
	}
	return CheckpointComparison(found), nil
}

// CompareLeaves is how the leaves compare that are shown at one place of a registry's log under two checkpoints, as two
// clients may have been shown them. Neither checkpoint has to be the older one. The error is one as VerifyInclusion
// returns it.
func CompareLeaves(place uint64, older, newer ShownLeaf) (LeafComparison, error) {
	oldRoot, oldLog, oldRecord := []byte(older.Checkpoint.LogRoot), []byte(older.LogID), []byte(older.RecordID)
	newRoot, newLog, newRecord := []byte(newer.Checkpoint.LogRoot), []byte(newer.LogID), []byte(newer.RecordID)
	oldProof, newProof := []byte(older.Proof), []byte(newer.Proof)
	var found C.uint32_t
	status := C.warg_compare_leaves(C.uint64_t(place),
		C.uint64_t(older.Checkpoint.LogLength), at(oldRoot), size(oldRoot), at(oldLog), size(oldLog),
		at(oldRecord), size(oldRecord), at(oldProof), size(oldProof),
		C.uint64_t(newer.Checkpoint.LogLength), at(newRoot), size(newRoot), at(newLog), size(newLog),
		at(newRecord), size(newRecord), at(newProof), size(newProof), &found)
	if uint32(status) != ok {
		return 0, misused(status, logTree, oldProof, newProof)
	}
	return LeafComparison(found), nil
}

// ShownBeginning is a checkpoint, and the proof that is to show that the log of a newer one begins with its own, as
// VerifyConsistency takes it under the length and the root of the newer checkpoint's log.
type ShownBeginning struct {
	Checkpoint Checkpoint
	Proof      string
}

// CompareHeads is how two answers about the last record of one log compare that are shown under one root of a
// registry's map, as two clients may have been shown them: each a record's id with its proof as VerifyPresence takes it,
// or an empty text, which is no record, with one as VerifyAbsence takes it. The error is one as VerifyInclusion returns
// it.
func CompareHeads(mapRoot, logID string, one, other Head) (HeadComparison, error) {
	root, log := []byte(mapRoot), []byte(logID)
	record, proof := []byte(one.RecordID), []byte(one.Proof)
	otherRecord, otherProof := []byte(other.RecordID), []byte(other.Proof)
	var found C.uint32_t
	status := C.warg_compare_heads(at(root), size(root), at(log), size(log), at(record), size(record),
		at(proof), size(proof), at(otherRecord), size(otherRecord), at(otherProof), size(otherProof), &found)
	if uint32(status) != ok {
		return 0, misused(status, mapTree, proof, otherProof)
	}
	return HeadComparison(found), nil
}

// CompareBeginnings is how two checkpoints of a registry compare that the log of a newer one is shown to begin with, as
// two clients may have been shown them. Of the newer one's map nothing is asked, and their times are not compared. The
// error is one as VerifyInclusion returns it.
func CompareBeginnings(newer Checkpoint, one, other ShownBeginning) (BeginningComparison, error) {
	root := []byte(newer.LogRoot)
	oneLog, oneMap, proof := []byte(one.Checkpoint.LogRoot), []byte(one.Checkpoint.MapRoot), []byte(one.Proof)
	otherLog, otherMap := []byte(other.Checkpoint.LogRoot), []byte(other.Checkpoint.MapRoot)
	otherProof := []byte(other.Proof)
	var found C.uint32_t
	status := C.warg_compare_beginnings(C.uint64_t(newer.LogLength), at(root), size(root),
		C.uint64_t(one.Checkpoint.LogLength), at(oneLog), size(oneLog), at(oneMap), size(oneMap),
		at(proof), size(proof),
		C.uint64_t(other.Checkpoint.LogLength), at(otherLog), size(otherLog), at(otherMap), size(otherMap),
		at(otherProof), size(otherProof), &found)
	if uint32(status) != ok {
		return 0, misused(status, logTree, proof, otherProof)
	}
	return BeginningComparison(found), nil
}

// shown is the answer of a call on a proof: where an argument is bad and that is the proof, its fault is told.
func shown(status rawStatus, tree C.uint32_t, proof []byte) (bool, error) {
	if uint32(status) != badArgument {
		return holds(status, "")
	}
	return false, misused(status, tree, proof)
}

// misused is the error of a status: of a bad argument the fault of the first of the proofs that has one, or else that of
// another text.
func misused(status rawStatus, tree C.uint32_t, proofs ...[]byte) error {
	if uint32(status) != badArgument {
		return errorOf(uint32(status), "", "")
	}
	for _, proof := range proofs {
		fault, found, err := filled(0, "", func(to []byte, used *rawSize) rawStatus {
			return C.warg_proof_fault(tree, at(proof), size(proof), at(to), size(to), used)
		})
		if err != nil {
			return err
		}
		if found {
			return errorNamed(ErrBadArgument, string(fault))
		}
	}
	return errorNamed(ErrBadArgument, badText)
}
