package nrbpf

// #include <nrbpf.h>
// #include <stdlib.h>
import "C"

import (
	"sync"
	"unsafe"
)

// Store is shared by all goroutines.
type Store struct {
	lock     sync.RWMutex
	at       *C.nrbpf_store // null once it is closed
	sessions int            // that are attached: the library counts them too, but no call of theirs may stand beside a close
}

// Open loads the programs of a manifest, each verified here, and opens a store of them. C1 to C6, O1, O2, H4, H8, of which an *Error says where.
func Open(config Config, manifest Manifest) (*Store, error) {
	given, c := manifest.inC(), config.inC()
	defer given.free()
	var store *C.nrbpf_store
	var why C.nrbpf_error
	status := C.nrbpf_open(&c, given.text, given.len, given.files, given.count, &store, &why)
	return opened(store, explained(status, &why))
}

// OpenOn opens a store on a state, which stays as it is and may be opened on again. The store's history begins at point 0. O3 besides.
func OpenOn(config Config, manifest Manifest, state *State) (*Store, error) {
	state.lock.Lock()
	defer state.lock.Unlock()
	if state.at == nil {
		return nil, ErrClosed
	}
	given, c := manifest.inC(), config.inC()
	defer given.free()
	var store *C.nrbpf_store
	var why C.nrbpf_error
	status := C.nrbpf_open_on(&c, given.text, given.len, given.files, given.count, state.at, &store, &why)
	return opened(store, explained(status, &why))
}

func opened(store *C.nrbpf_store, err error) (*Store, error) {
	if err != nil {
		return nil, err
	}
	return &Store{at: store}, nil
}

// Close ends a store and gives its memory back. S5.
func (s *Store) Close() error {
	s.lock.Lock()
	defer s.lock.Unlock()
	if err := s.isAlone(); err != nil {
		return err
	}
	err := told(C.nrbpf_close(s.at))
	if err == nil {
		s.at = nil
	}
	return err
}

// CloseInto ends a store, and gives the state that it ends in. S5, O2, and then the store is as it was.
func (s *Store) CloseInto() (*State, error) {
	s.lock.Lock()
	defer s.lock.Unlock()
	if err := s.isAlone(); err != nil {
		return nil, err
	}
	var state *C.nrbpf_state
	if err := told(C.nrbpf_close_into(s.at, &state)); err != nil {
		return nil, err
	}
	s.at = nil
	return &State{at: state}, nil
}

func (s *Store) isAlone() error {
	if s.at == nil {
		return ErrClosed
	}
	if s.sessions > 0 {
		return ErrAttached
	}
	return nil
}

// Program is the number of a program of the manifest. S1, H4.
func (s *Store) Program(name string) (uint16, error) {
	s.lock.RLock()
	defer s.lock.RUnlock()
	if s.at == nil {
		return 0, ErrClosed
	}
	text := C.CString(name)
	defer C.free(unsafe.Pointer(text))
	var number C.uint16_t
	err := told(C.nrbpf_program_number(s.at, text, C.size_t(len(name)), &number))
	return uint16(number), err
}

// Attach gives a session of a node, counted from 0, that is free. H1.
func (s *Store) Attach(node uint32) (*Session, error) {
	s.lock.Lock()
	defer s.lock.Unlock()
	if s.at == nil {
		return nil, ErrClosed
	}
	var session *C.nrbpf_session
	if err := told(C.nrbpf_attach(s.at, C.uint32_t(node), &session)); err != nil {
		return nil, err
	}
	s.sessions++
	return &Session{store: s, at: session}, nil
}

// NewState gives a state for snapshots of this store, any number of them; until the first it is a new store's. It takes the memory of one
// node's maps. O2.
func (s *Store) NewState() (*State, error) {
	s.lock.RLock()
	defer s.lock.RUnlock()
	if s.at == nil {
		return nil, ErrClosed
	}
	var state *C.nrbpf_state
	if err := told(C.nrbpf_state_new(s.at, &state)); err != nil {
		return nil, err
	}
	return &State{at: state}, nil
}
