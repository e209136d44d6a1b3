package nrbpf

/*
#include <nrbpf.h>

nrbpf_status nrbpf_go_dump(const nrbpf_state *state, uintptr_t to);
*/
import "C"

import (
	"io"
	"runtime/cgo"
	"sync"
	"unsafe"
)

// State is all keys, values and installed programs at one point of a history. It takes one call at a time, to which a lock of its own sees.
type State struct {
	lock sync.Mutex
	at   *C.nrbpf_state // null once it is freed
}

// Free ends a state, and does nothing to one that has ended.
func (s *State) Free() {
	s.lock.Lock()
	defer s.lock.Unlock()
	C.nrbpf_state_free(s.at)
	s.at = nil
}

// Load gives the state that a dump says, for stores of this manifest with config.Spare places for programs of config.LongBytes; an empty
// text is a new store's. OpenOn takes it. C1 to C6, E0 to E9, O1 of the places and their bytes, O2, H4, H8, of which an *Error says where.
func Load(config Config, manifest Manifest, dump []byte) (*State, error) {
	given, c := manifest.inC(), config.inC()
	defer given.free()
	var state *C.nrbpf_state
	var why C.nrbpf_error
	text := (*C.char)(unsafe.Pointer(first(dump)))
	status := C.nrbpf_state_load(&c, given.text, given.len, given.files, given.count, text, size(dump), &state, &why)
	if err := explained(status, &why); err != nil {
		return nil, err
	}
	return &State{at: state}, nil
}

// dumping is a dump whose pieces go to another goroutine than the one in the library's call.
type dumping struct {
	pieces chan []byte   // the library's memory, until more answers; closed once the call has returned
	more   chan struct{} // an answer to each piece; closed if the writer wants no other
	err    error         // the call's, once pieces is closed
}

// Dump writes a state as the text that `nrbpf --dump` writes and `nrbpf --load` takes. Where the writer fails, that is the error. No store is
// held up; the writer makes no call on this state. It may panic, or end its goroutine: the state takes calls after that. E0.
func (s *State) Dump(to io.Writer) error {
	s.lock.Lock()
	defer s.lock.Unlock()
	if s.at == nil {
		return ErrClosed
	}
	// (if the writer ends this goroutine, that must not unwind the library's call: so another one makes the call)
	d := &dumping{pieces: make(chan []byte), more: make(chan struct{})}
	go d.call(s.at)
	defer d.end()
	for piece := range d.pieces {
		if _, err := to.Write(piece); err != nil {
			return err
		}
		d.more <- struct{}{}
	}
	return d.err
}

func (d *dumping) call(state *C.nrbpf_state) {
	defer close(d.pieces)
	handle := cgo.NewHandle(d)
	defer handle.Delete()
	d.err = told(C.nrbpf_go_dump(state, C.uintptr_t(handle)))
}

// end has the call return, if it has not, and waits for that.
func (d *dumping) end() {
	close(d.more)
	for range d.pieces {
	}
}

// write is called by the library, for a piece of a dump.
func (d *dumping) write(piece []byte) (stop C.int) {
	d.pieces <- piece
	if _, isWanted := <-d.more; !isWanted {
		return 1
	}
	return 0
}

//export nrbpfGoWrite
func nrbpfGoWrite(to C.uintptr_t, bytes *C.char, length C.size_t) C.int {
	return cgo.Handle(to).Value().(*dumping).write(unsafe.Slice((*byte)(unsafe.Pointer(bytes)), int(length)))
}

// Snapshot makes a state the store's at one point of the history, which has all updates that were answered when the call began, and tells
// the point. Other sessions go on; those of this session's node wait while the maps are copied. H2, H3, H9.
func (s *Session) Snapshot(into *State) (point uint64, err error) {
	into.lock.Lock()
	defer into.lock.Unlock()
	return s.snapshot(s.enter, into, func(point *C.uint64_t) C.nrbpf_status { return C.nrbpf_snapshot(s.at, into.at, point) })
}

// TrySnapshot is a Snapshot that waits for nobody: ErrBusy besides, and then the state is as it was.
func (s *Session) TrySnapshot(into *State) (point uint64, err error) {
	if !into.lock.TryLock() {
		return 0, ErrBusy
	}
	defer into.lock.Unlock()
	return s.snapshot(s.tryEnter, into, func(point *C.uint64_t) C.nrbpf_status { return C.nrbpf_try_snapshot(s.at, into.at, point) })
}

// snapshot has the state's lock. That comes before the session's: a dump has it too, while its writer may call on the session.
func (s *Session) snapshot(enter func() error, into *State, call func(*C.uint64_t) C.nrbpf_status) (uint64, error) {
	if err := enter(); err != nil {
		return 0, err
	}
	defer s.lock.Unlock()
	if into.at == nil {
		return 0, ErrClosed
	}
	var point C.uint64_t
	err := told(call(&point))
	return uint64(point), err
}
