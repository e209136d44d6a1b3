//go:build tree

package nrbpf

// With the tag `tree` CGO_CFLAGS and CGO_LDFLAGS say where header and library lie, as `check` does for those of this tree.
