package nrbpf

// #include "calls.h"
import "C"

import "sync"

// Session makes one call at a time. It goes back to its store by Detach, or by Close, which is the same.
type Session struct {
	lock   sync.Mutex // of all below it
	store  *Store
	at     *C.nrbpf_session // null once it is detached
	answer C.nrbpf_answer   // the room of a call's, which would be of the heap each time
	why    C.nrbpf_error

	isInstall bool // whether what is posted is one
}

// Answer is what an update or a read is told.
type Answer struct {
	Point uint64 // of an update: its index, how many stand before it. Of a read: how many it has seen
	Reply uint64 // what the program left in R0
}

// Signed is the reply with its sign: an error such as -2 is replied as 2^64 - 2.
func (a Answer) Signed() int64 { return int64(a.Reply) }

// Two replies of an operation that did nothing.
const (
	ReplyNoRoom  uint64 = C.NRBPF_REPLY_NO_ROOM // -7: by custom of a program whose map has no room; of an install, which is ErrNoPlace, too
	ReplyInvalid uint64 = C.NRBPF_REPLY_INVALID // -22: the call found no program of its number, mode and argument length at its index
)

// Mode is what a program may do.
type Mode uint32

// The two modes.
const (
	ModeUpdate Mode = C.NRBPF_MODE_UPDATE
	ModeRead   Mode = C.NRBPF_MODE_READ
)

// enter begins a call, after those of other goroutines on this session. Without an error the caller ends it by giving the lock back.
func (s *Session) enter() error {
	s.lock.Lock()
	return s.entered()
}

// tryEnter begins a call that waits for nobody: ErrBusy where another goroutine is in a call on this session.
func (s *Session) tryEnter() error {
	if !s.lock.TryLock() {
		return ErrBusy
	}
	return s.entered()
}

func (s *Session) entered() error {
	if s.at == nil {
		s.lock.Unlock()
		return ErrDetached
	}
	return nil
}

// answered is what a call has told.
func (s *Session) answered(status C.nrbpf_status) (Answer, error) {
	if status != C.NRBPF_OK {
		return Answer{}, told(status)
	}
	return Answer{uint64(s.answer.point), uint64(s.answer.reply)}, nil
}

// Detach gives the session back. H2, H3.
func (s *Session) Detach() error {
	if err := s.enter(); err != nil {
		return err
	}
	defer s.lock.Unlock()
	if err := told(C.nrbpf_detach(s.at)); err != nil {
		return err
	}
	s.at = nil
	s.store.lock.Lock()
	s.store.sessions--
	s.store.lock.Unlock()
	return nil
}

// Close is Detach, so that a Session is an io.Closer.
func (s *Session) Close() error { return s.Detach() }

// Update runs a program that may change the maps, and waits for other sessions where they are in the way. S1 to S4, H2, H3.
func (s *Session) Update(program uint16, argument []byte) (Answer, error) {
	if err := s.enter(); err != nil {
		return Answer{}, err
	}
	defer s.lock.Unlock()
	return s.answered(C.go_update(s.at, C.uint16_t(program), first(argument), size(argument), &s.answer))
}

// TryUpdate is an Update that waits for nobody: ErrBusy, and then nothing is asked, or ErrPosted. Then the store has it, once, and the
// session takes no other call but Poll until that has answered. Other updates of its node may have to wait for it.
func (s *Session) TryUpdate(program uint16, argument []byte) (Answer, error) {
	if err := s.tryEnter(); err != nil {
		return Answer{}, err
	}
	defer s.lock.Unlock()
	return s.answered(C.go_try_update(s.at, C.uint16_t(program), first(argument), size(argument), &s.answer))
}

// Poll goes on with the update or the install that is posted, and waits for nobody: ErrPosted again, or its answer, or ErrFull, with which
// it is over and has done nothing, as an install is with ErrNoPlace. H2, H11.
func (s *Session) Poll() (Answer, error) {
	if err := s.tryEnter(); err == ErrBusy {
		return Answer{}, ErrPosted
	} else if err != nil {
		return Answer{}, err
	}
	defer s.lock.Unlock()
	status := C.nrbpf_poll(s.at, &s.answer)
	isInstall := s.isInstall
	s.isInstall = isInstall && status == C.NRBPF_POSTED
	if isInstall && status == C.NRBPF_OK {
		return s.placed()
	}
	return s.answered(status)
}

// Read runs a program that changes nothing, and waits for other sessions where they are in the way. S1 to S3, H2, H3.
func (s *Session) Read(program uint16, argument []byte) (Answer, error) {
	if err := s.enter(); err != nil {
		return Answer{}, err
	}
	defer s.lock.Unlock()
	return s.answered(C.go_read(s.at, C.uint16_t(program), first(argument), size(argument), &s.answer))
}

// TryRead is a Read that waits for nobody: ErrBusy besides.
func (s *Session) TryRead(program uint16, argument []byte) (Answer, error) {
	if err := s.tryEnter(); err != nil {
		return Answer{}, err
	}
	defer s.lock.Unlock()
	return s.answered(C.go_try_read(s.at, C.uint16_t(program), first(argument), size(argument), &s.answer))
}

// Install adds a program to the store while it runs. The reply is its number from then on. ErrNoPlace: no spare place is left. S4, S6 to S8, H2,
// H3, H5, of which an *Error says more.
func (s *Session) Install(mode Mode, argumentLen uint32, program []byte) (Answer, error) {
	if err := s.enter(); err != nil {
		return Answer{}, err
	}
	defer s.lock.Unlock()
	status := C.go_install(s.at, C.uint32_t(mode), C.uint32_t(argumentLen), first(program), size(program), &s.answer, &s.why)
	return s.installed(status)
}

// TryInstall is an Install that waits for nobody: ErrBusy and ErrPosted besides, as of TryUpdate.
func (s *Session) TryInstall(mode Mode, argumentLen uint32, program []byte) (Answer, error) {
	if err := s.tryEnter(); err != nil {
		return Answer{}, err
	}
	defer s.lock.Unlock()
	status := C.go_try_install(s.at, C.uint32_t(mode), C.uint32_t(argumentLen), first(program), size(program), &s.answer, &s.why)
	return s.installed(status)
}

// InstallWithin is an Install of a program that may name these maps alone, by their numbers. A number that no map has says nothing. S8 with V16
// where the program names another map, at the first slot that does.
func (s *Session) InstallWithin(maps []uint32, mode Mode, argumentLen uint32, program []byte) (Answer, error) {
	if err := s.enter(); err != nil {
		return Answer{}, err
	}
	defer s.lock.Unlock()
	status := C.go_install_within(s.at, bits(maps), C.uint32_t(mode), C.uint32_t(argumentLen), first(program), size(program), &s.answer, &s.why)
	return s.installed(status)
}

// TryInstallWithin is an InstallWithin that waits for nobody: ErrBusy and ErrPosted besides, as of TryUpdate.
func (s *Session) TryInstallWithin(maps []uint32, mode Mode, argumentLen uint32, program []byte) (Answer, error) {
	if err := s.tryEnter(); err != nil {
		return Answer{}, err
	}
	defer s.lock.Unlock()
	status := C.go_try_install_within(s.at, bits(maps), C.uint32_t(mode), C.uint32_t(argumentLen), first(program), size(program), &s.answer, &s.why)
	return s.installed(status)
}

// bits has bit m for each map m among these.
func bits(maps []uint32) C.uint16_t {
	var told C.uint16_t
	for _, m := range maps {
		if m < 16 {
			told |= 1 << m
		}
	}
	return told
}

func (s *Session) installed(status C.nrbpf_status) (Answer, error) {
	if status == C.NRBPF_POSTED {
		s.isInstall = true
	}
	if status != C.NRBPF_OK {
		return Answer{}, explained(status, &s.why)
	}
	return s.placed()
}

// placed is what an install is told: its answer, and whether it found a place.
func (s *Session) placed() (Answer, error) {
	answer, err := s.answered(C.NRBPF_OK)
	if answer.Reply == ReplyNoRoom {
		err = ErrNoPlace
	}
	return answer, err
}
