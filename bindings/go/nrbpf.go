// Package nrbpf is the library for C of nrbpf, a node-replicated store in memory whose operations are verified eBPF programs.
//
// A Store is shared by all goroutines. It is called through sessions: a Session makes one call at a time, and a lock of its own
// sees to that, so a goroutine that calls often has one of its own. All updates of a store are its history. A point of it is a
// number of updates: an update is told how many stand before it, and whatever reads is told how many the maps had seen.
//
// A call that waits for other sessions keeps its thread of the system meanwhile. Those with Try in their name, Poll and PollEach wait for nobody:
// where another goroutine is in a call on the same session, lane or state, a try answers ErrBusy, and a poll ErrPosted.
//
// What a call refuses is an error that errors.Is compares with a Status, as in errors.Is(err, nrbpf.ErrFull).
package nrbpf

// #include <nrbpf.h>
// #include <stdlib.h>
// #include <string.h>
import "C"

import (
	"io/fs"
	"os"
	"strings"
	"unsafe"
)

// Limits says how large the maps of a manifest and the arguments of its programs may be. A number that is 0 is that of Standard.
type Limits struct {
	Key, Value uint32 // the most bytes of a key, 4 to 64, and of a value, to 16,384
	Entries    uint64 // the most entries of a map, to 2^31
	Bytes      uint64 // the most bytes of all maps, to 2^40
	Argument   uint32 // the most bytes of an argument, to 16,384
}

// Standard and Large are the limits without an option, and the widest.
var (
	Standard = Limits{64, 256, 65_536, 16_777_216, 64}
	Large    = Limits{64, 16_384, 1 << 31, 1 << 40, 16_384}
)

// Config has the sizes of a store.
type Config struct {
	Nodes     uint32 // 1 to 8: each has a copy of the maps, by which it answers reads
	Slots     uint32 // 1 to 16: the sessions of a node
	Window    uint32 // 16 to 1048576: the updates that the log keeps
	Limit     uint32 // the updates of the whole history, behind which there is ErrFull; Endless: no end
	Spare     uint32 // 0 to 4096: the programs that may be installed later
	Limits    Limits // how large the maps of the manifest and the arguments of its programs may be
	LongBytes uint32 // 0 to 16384: the most bytes of an installed program, and of its argument, if that is more than 192 and 64
}

// Endless is the limit of a history that has no end.
const Endless = C.NRBPF_ENDLESS

// NewConfig has a window of 4096 updates, a history without an end, and no room for programs to be installed.
func NewConfig(nodes, slots uint32) Config {
	var config C.nrbpf_config
	C.nrbpf_config_init(&config, C.NRBPF_VERSION, C.uint32_t(nodes), C.uint32_t(slots))
	return Config{nodes, slots, uint32(config.window), uint32(config.limit), uint32(config.spare), Limits{}, uint32(config.long_bytes)}
}

func (c Config) inC() C.nrbpf_config {
	return C.nrbpf_config{
		version: C.NRBPF_VERSION,
		nodes:   C.uint32_t(c.Nodes),
		slots:   C.uint32_t(c.Slots),
		window:  C.uint32_t(c.Window),
		limit:   C.uint32_t(c.Limit),
		spare:   C.uint32_t(c.Spare),
		limits: C.nrbpf_limits{
			key:      C.uint32_t(c.Limits.Key),
			value:    C.uint32_t(c.Limits.Value),
			entries:  C.uint64_t(c.Limits.Entries),
			bytes:    C.uint64_t(c.Limits.Bytes),
			argument: C.uint32_t(c.Limits.Argument),
		},
		long_bytes: C.uint32_t(c.LongBytes),
	}
}

// Version is that of the library: 1000 times the major number, and the minor one.
func Version() uint32 { return uint32(C.nrbpf_version()) }

// Manifest says the maps and programs of a store.
type Manifest struct {
	Text  string
	Files map[string]string // the hexadecimal digits of each program file, by the name that stands in the text
}

// ReadManifest reads a manifest and the program files that it names, whose names are paths from the working folder.
func ReadManifest(path string) (Manifest, error) { return readManifest(os.ReadFile, path) }

// ReadManifestFS reads them from a file system, such as one that go:embed makes, whose paths they are.
func ReadManifestFS(files fs.FS, path string) (Manifest, error) {
	return readManifest(func(name string) ([]byte, error) { return fs.ReadFile(files, name) }, path)
}

func readManifest(read func(string) ([]byte, error), path string) (Manifest, error) {
	text, err := read(path)
	m := Manifest{string(text), map[string]string{}}
	for _, line := range strings.Split(m.Text, "\n") {
		if err != nil {
			break
		}
		// (any other line names no file: it is for Open to refuse)
		if words := strings.Split(line, " "); len(words) == 5 && words[0] == "program" && words[4] != "" {
			text, err = read(words[4])
			m.Files[words[4]] = string(text)
		}
	}
	return m, err
}

// loading is a manifest in C's memory: there what is passed may point to more, which Go's memory may not.
type loading struct {
	text  *C.char
	len   C.size_t
	files *C.nrbpf_file
	count C.size_t
	held  []unsafe.Pointer
}

func (m Manifest) inC() *loading {
	l := &loading{len: C.size_t(len(m.Text)), count: C.size_t(len(m.Files))}
	l.text = l.hold(m.Text)
	l.files = (*C.nrbpf_file)(zeros((len(m.Files) + 1) * C.sizeof_nrbpf_file))
	l.held = append(l.held, unsafe.Pointer(l.files))
	files := unsafe.Slice(l.files, len(m.Files))
	k := 0
	for name, text := range m.Files {
		files[k] = C.nrbpf_file{name: l.hold(name), name_len: C.size_t(len(name)), text: l.hold(text), text_len: C.size_t(len(text))}
		k++
	}
	return l
}

func (l *loading) hold(text string) *C.char {
	at := C.CString(text)
	l.held = append(l.held, unsafe.Pointer(at))
	return at
}

func (l *loading) free() {
	for _, at := range l.held {
		C.free(at)
	}
}

// zeros is memory of C's in which pointers may be stored: what stood there before must not look like a pointer of Go's.
func zeros(length int) unsafe.Pointer {
	at := C.malloc(C.size_t(length))
	C.memset(at, 0, C.size_t(length))
	return at
}

// first is where bytes begin: null of none.
func first(bytes []byte) *C.uint8_t {
	if len(bytes) == 0 {
		return nil
	}
	return (*C.uint8_t)(unsafe.Pointer(&bytes[0]))
}

func size(bytes []byte) C.size_t { return C.size_t(len(bytes)) }
