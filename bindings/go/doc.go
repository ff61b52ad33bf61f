// Package weoldrin checks the logs of a Warg package registry (https://warg.io) by a proved library.
//
// A package has a log of signed records: who may release, what was released, what was yanked. AppendSigned takes a
// record if it is lawful and its signature belongs, which the library verifies: ECDSA P-256. For any other algorithm
// Append asks whether the signature belongs to the message under the key, and takes the caller's word for that one
// question alone.
//
//	log, err := weoldrin.NewPackageLog()
//	if err != nil {
//		return err
//	}
//	defer log.Close()
//	for _, envelope := range envelopes {
//		if err := log.AppendSigned(envelope); err != nil {
//			return err
//		}
//	}
//	latest, err := log.Latest(">=1, <2")
//
// Where a call is refused it returns an *Error, and the log is as it was. What is not there, such as a release of a
// version that was never released, is no error: it is nil, or an empty text.
//
// The package records writes records and envelopes, and the package p256 makes keys and signs.
//
// The library for Linux on x86-64 lies beside the sources and is linked by cgo. With the build tag warg_system the one
// that pkg-config finds is linked.
package weoldrin
