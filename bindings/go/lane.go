package nrbpf

// #include "calls.h"
// #include <stdlib.h>
import "C"

import (
	"sync"
	"unsafe"
)

// MostSlots is how many slots a Lane has at most, and so how many updates a list has.
const MostSlots = C.NRBPF_MOST_SLOTS

// Lane is some slots of one node: a list of updates is asked for by one call, which costs much less than as many calls. It makes one call at a
// time, and goes back to its store by Detach, or by Close, which is the same.
type Lane struct {
	lock     sync.Mutex // of all below it
	store    *Store
	at       *C.nrbpf_lane // null once it is detached
	slots    uint32
	posted   int // how many calls the list has that is posted
	outcomes [MostSlots]C.nrbpf_outcome
	why      C.nrbpf_error
}

// Outcome is what one update of a list is told: its answer, or ErrFull.
type Outcome struct {
	Answer
	Err error
}

// AttachLane gives some free sessions of a node as one lane, 1 to MostSlots. H1, H5.
func (s *Store) AttachLane(node, slots uint32) (*Lane, error) {
	s.lock.Lock()
	defer s.lock.Unlock()
	if s.at == nil {
		return nil, ErrClosed
	}
	var lane *C.nrbpf_lane
	if err := told(C.nrbpf_attach_lane(s.at, C.uint32_t(node), C.uint32_t(slots), &lane)); err != nil {
		return nil, err
	}
	s.sessions++
	return &Lane{store: s, at: lane, slots: slots}, nil
}

// Slots is how many updates a list of this lane has at most.
func (l *Lane) Slots() int { return int(l.slots) }

// enter begins a call, after those of other goroutines on this lane. Without an error the caller ends it by giving the lock back.
func (l *Lane) enter() error {
	l.lock.Lock()
	return l.entered()
}

// tryEnter begins a call that waits for nobody: ErrBusy where another goroutine is in a call on this lane.
func (l *Lane) tryEnter() error {
	if !l.lock.TryLock() {
		return ErrBusy
	}
	return l.entered()
}

func (l *Lane) entered() error {
	if l.at == nil {
		l.lock.Unlock()
		return ErrDetached
	}
	return nil
}

// Detach gives the lane back. H2, H3.
func (l *Lane) Detach() error {
	if err := l.enter(); err != nil {
		return err
	}
	defer l.lock.Unlock()
	if err := told(C.nrbpf_detach_lane(l.at)); err != nil {
		return err
	}
	l.at = nil
	l.store.lock.Lock()
	l.store.sessions--
	l.store.lock.Unlock()
	return nil
}

// Close is Detach, so that a Lane is an io.Closer.
func (l *Lane) Close() error { return l.Detach() }

// UpdateEach runs programs that may change the maps, and waits for other sessions where they are in the way. It tells an outcome for each call.
// Each update is an operation of its own: those of others may stand between two of them. S1 to S3, and then the Slot of an *Error is the number
// of the first call that is refused, and nothing is asked; H2, H3, H5.
func (l *Lane) UpdateEach(calls []Question) ([]Outcome, error) {
	return l.each(l.enter, calls, func(at *C.nrbpf_question, count C.size_t) C.nrbpf_status {
		return C.nrbpf_update_each(l.at, at, count, &l.outcomes[0], &l.why)
	})
}

// TryUpdateEach is an UpdateEach that waits for nobody: ErrBusy, and then nothing is asked, or ErrPosted. Then the store has each update, once,
// and the lane takes no other call but PollEach until that has answered. Other updates of its node may have to wait for it.
func (l *Lane) TryUpdateEach(calls []Question) ([]Outcome, error) {
	return l.each(l.tryEnter, calls, func(at *C.nrbpf_question, count C.size_t) C.nrbpf_status {
		return C.nrbpf_try_update_each(l.at, at, count, &l.outcomes[0], &l.why)
	})
}

func (l *Lane) each(enter func() error, calls []Question, call func(*C.nrbpf_question, C.size_t) C.nrbpf_status) ([]Outcome, error) {
	if err := enter(); err != nil {
		return nil, err
	}
	defer l.lock.Unlock()
	at := asked(calls)
	defer C.free(unsafe.Pointer(at))
	status := call(at, C.size_t(len(calls)))
	if status == C.NRBPF_POSTED {
		l.posted = len(calls)
	}
	return l.answered(status, len(calls), &l.why)
}

// PollEach goes on with the list that is posted, and waits for nobody: ErrPosted again, or an outcome for each call. H2, H11.
func (l *Lane) PollEach() ([]Outcome, error) {
	if err := l.tryEnter(); err == ErrBusy {
		return nil, ErrPosted
	} else if err != nil {
		return nil, err
	}
	defer l.lock.Unlock()
	return l.answered(C.nrbpf_poll_each(l.at, &l.outcomes[0]), l.posted, &C.nrbpf_error{})
}

// answered is what a list is told. ErrFull of the whole list says only that some update got it.
func (l *Lane) answered(status C.nrbpf_status, count int, why *C.nrbpf_error) ([]Outcome, error) {
	if status != C.NRBPF_OK && status != C.NRBPF_FULL {
		return nil, explained(status, why)
	}
	outcomes := make([]Outcome, count)
	for k, it := range l.outcomes[:count] {
		outcomes[k] = Outcome{Answer{uint64(it.point), uint64(it.reply)}, told(it.status)}
	}
	return outcomes, nil
}
