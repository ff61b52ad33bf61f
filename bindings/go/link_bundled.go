//go:build !warg_system

package weoldrin

// The library lies beside this file, so that a vendored copy of the module has it too.

// #cgo linux,amd64 LDFLAGS: ${SRCDIR}/libwarg_linux_amd64.a
// #cgo linux,arm64 LDFLAGS: ${SRCDIR}/libwarg_linux_arm64.a
import "C"
