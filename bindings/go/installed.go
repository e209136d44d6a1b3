//go:build !tree

package nrbpf

// The library as `make install` puts it where pkg-config finds it.

// #cgo pkg-config: nrbpf
import "C"
