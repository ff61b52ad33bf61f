//go:build !cgo || (!warg_system && !(linux && (amd64 || arm64)))

package weoldrin

// There is a library for Linux alone, and it is linked by cgo, which needs a C compiler and CGO_ENABLED=1. Another
// machine's own library, found by pkg-config, is linked with the build tag warg_system.
const _ = weoldrin_needs_cgo_and_linux_on_amd64_or_arm64_or_the_build_tag_warg_system
