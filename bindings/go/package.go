package weoldrin

// #include "warg.h"
import "C"

import (
	"time"
)

// PackageLog is the log of a package.
type PackageLog struct {
	Log
}

const (
	badRequirement = "BadRequirement: the text is no requirement of versions, such as >=1.2, <2"
	badVersion     = "BadVersion: the text is no version, such as 1.2.0"
)

// NewPackageLog is a log of a package that has no records.
func NewPackageLog() (*PackageLog, error) {
	log := &PackageLog{}
	if err := log.open(Package); err != nil {
		return nil, err
	}
	forgotten(log)
	return log, nil
}

// PackageLogFromJSON is a log that goes on from a saved state. It has no records: Len, Record, Chain and Compare are
// errors. The error is ErrBadArgument, with the fault's name, where the text is no saved state of a package's log.
// Whether it is what was saved is the caller's to keep.
func PackageLogFromJSON(saved string) (*PackageLog, error) {
	return PackageLogFromJSONCounted(saved, -1)
}

// PackageLogFromJSONCounted is the same of a log that had so many records when its state was saved: Last goes on
// counting from there. A negative count is not known.
func PackageLogFromJSONCounted(saved string, count int) (*PackageLog, error) {
	log := &PackageLog{}
	if err := log.resume(Package, saved, count); err != nil {
		return nil, err
	}
	forgotten(log)
	return log, nil
}

// Latest is the release that is not yanked, meets the requirement (as ">=1.2, <2") and has the greatest version; nil if
// there is none. The error is ErrBadArgument where the text is no requirement.
func (l *PackageLog) Latest(requirement string) (*Release, error) {
	text := []byte(requirement)
	return l.found(badRequirement, func(to []byte, used *rawSize, release *C.struct_warg_release) rawStatus {
		return C.warg_latest(&l.raw, at(text), size(text), at(to), size(to), used, release)
	})
}

// Release is the release of a version, yanked or not; nil if the version was not released. The error is ErrBadArgument
// where the text is no version.
func (l *PackageLog) Release(version string) (*Release, error) {
	text := []byte(version)
	return l.found(badVersion, func(to []byte, used *rawSize, release *C.struct_warg_release) rawStatus {
		return C.warg_release(&l.raw, at(text), size(text), at(to), size(to), used, release)
	})
}

// Releases are the releases, yanked ones included, in the order in which they were released; those of a resumed log
// come first, by the bytes of their versions.
func (l *PackageLog) Releases() ([]*Release, error) {
	return inOrder(func(place int) (*Release, error) {
		return l.found("", func(to []byte, used *rawSize, release *C.struct_warg_release) rawStatus {
			return C.warg_releases(&l.raw, rawSize(place), at(to), size(to), used, release)
		})
	})
}

// Compare compares the records of this log, the left one, with those of another. The error is ErrBadArgument if one of
// them was resumed.
func (l *PackageLog) Compare(other *PackageLog) (Comparison, error) {
	return l.compare(&other.Log)
}

// found is the release that a call gives.
func (l *PackageLog) found(
	misuse string,
	call func(to []byte, used *rawSize, release *C.struct_warg_release) rawStatus,
) (*Release, error) {
	var lengths C.struct_warg_release
	text, found, err := l.said(0, misuse, func(to []byte, used *rawSize) rawStatus { return call(to, used, &lengths) })
	if !found {
		return nil, err
	}
	return releaseOf(text, &lengths), nil
}

// releaseOf is a release from its texts, which stand one behind the other, and their lengths.
func releaseOf(text []byte, lengths *C.struct_warg_release) *Release {
	next := func(length C.size_t) string {
		part := string(text[:length])
		text = text[length:]
		return part
	}
	release := &Release{
		Version:   next(lengths.version_len),
		RecordID:  next(lengths.record_id_len),
		By:        next(lengths.key_id_len),
		Timestamp: time.Unix(int64(lengths.seconds), int64(lengths.nanos)).UTC(),
		Yanked:    lengths.is_yanked != 0,
	}
	if release.Yanked {
		release.YankedBy = next(lengths.state_len)
		release.YankedTimestamp = time.Unix(int64(lengths.yanked_seconds), int64(lengths.yanked_nanos)).UTC()
	} else {
		release.Content = next(lengths.state_len)
	}
	return release
}
