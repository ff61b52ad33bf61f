package weoldrin

// #include "warg.h"
import "C"

// OperatorLog is the log of a registry's operators.
type OperatorLog struct {
	Log
}

// NewOperatorLog is a log of operators that has no records.
func NewOperatorLog() (*OperatorLog, error) {
	log := &OperatorLog{}
	if err := log.open(Operator); err != nil {
		return nil, err
	}
	forgotten(log)
	return log, nil
}

// OperatorLogFromJSON is a log that goes on from a saved state, as PackageLogFromJSON says it of a package's.
func OperatorLogFromJSON(saved string) (*OperatorLog, error) {
	return OperatorLogFromJSONCounted(saved, -1)
}

// OperatorLogFromJSONCounted is the same, as PackageLogFromJSONCounted says it.
func OperatorLogFromJSONCounted(saved string, count int) (*OperatorLog, error) {
	log := &OperatorLog{}
	if err := log.resume(Operator, saved, count); err != nil {
		return nil, err
	}
	forgotten(log)
	return log, nil
}

// NamespaceState is what a namespace is; nil if the log has none of that name.
func (l *OperatorLog) NamespaceState(name string) (*Namespace, error) {
	text := []byte(name)
	var isImported C.uint32_t
	registry, found, err := l.said(0, "", func(to []byte, used *rawSize) rawStatus {
		return C.warg_namespace(&l.raw, at(text), size(text), at(to), size(to), used, &isImported)
	})
	if !found {
		return nil, err
	}
	return &Namespace{Imported: isImported != 0, Registry: string(registry)}, nil
}

// KeyHasPermissionToSignCheckpoints is whether a key may sign checkpoints.
func (l *OperatorLog) KeyHasPermissionToSignCheckpoints(keyID string) (bool, error) {
	return l.Holds(keyID, MayCommit)
}

// Compare compares the records of this log, the left one, with those of another. The error is ErrBadArgument if one of
// them was resumed.
func (l *OperatorLog) Compare(other *OperatorLog) (Comparison, error) {
	return l.compare(&other.Log)
}
