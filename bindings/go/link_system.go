//go:build warg_system

package weoldrin

// #cgo pkg-config: warg
import "C"
