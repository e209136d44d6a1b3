package nrbpf

// #include "calls.h"
// #include <stdlib.h>
import "C"

import "unsafe"

// Found is what a Get is told.
type Found struct {
	Point   uint64 // how many updates the map had seen
	IsThere bool   // and then the value is written; else it is as it was
}

// Get looks for a key of a map, counted from 0 as the manifest has them, and writes its value into `value`, which is as long as the map's.
// S9, S11, S12, H2, H3.
func (s *Session) Get(of uint32, key, value []byte) (Found, error) {
	return s.get(s.enter, func(found *C.nrbpf_found) C.nrbpf_status {
		return C.go_get(s.at, C.uint32_t(of), first(key), size(key), first(value), size(value), found)
	})
}

// TryGet is a Get that waits for nobody: ErrBusy besides.
func (s *Session) TryGet(of uint32, key, value []byte) (Found, error) {
	return s.get(s.tryEnter, func(found *C.nrbpf_found) C.nrbpf_status {
		return C.go_try_get(s.at, C.uint32_t(of), first(key), size(key), first(value), size(value), found)
	})
}

func (s *Session) get(enter func() error, call func(*C.nrbpf_found) C.nrbpf_status) (Found, error) {
	if err := enter(); err != nil {
		return Found{}, err
	}
	defer s.lock.Unlock()
	var found C.nrbpf_found
	if err := told(call(&found)); err != nil {
		return Found{}, err
	}
	return Found{uint64(found.point), found.is_there == 1}, nil
}

// Scanned is what a Scan is told.
type Scanned struct {
	Point uint64 // how many updates the map had seen
	Count uint32 // how many entries were given
	Next  uint32 // the place of the map to go on from, or End
}

// End is the place behind the last of a map.
const End uint32 = C.NRBPF_END

// Scan gives entries of a map from the place `from` on, 0 at first: keys one behind another, and values, as many as both rooms hold. It looks
// at no more than 1,024 places of the map, and 16 for each entry there is room for, so it may give none and have a place to go on from. Pages
// may be of several points of the history, a snapshot is of one. S9, S10, H2, H3.
func (s *Session) Scan(of, from uint32, keys, values []byte) (Scanned, error) {
	return s.scan(s.enter, func(page *C.nrbpf_scanned) C.nrbpf_status {
		return C.go_scan(s.at, C.uint32_t(of), C.uint32_t(from), first(keys), size(keys), first(values), size(values), page)
	})
}

// TryScan is a Scan that waits for nobody: ErrBusy besides.
func (s *Session) TryScan(of, from uint32, keys, values []byte) (Scanned, error) {
	return s.scan(s.tryEnter, func(page *C.nrbpf_scanned) C.nrbpf_status {
		return C.go_try_scan(s.at, C.uint32_t(of), C.uint32_t(from), first(keys), size(keys), first(values), size(values), page)
	})
}

func (s *Session) scan(enter func() error, call func(*C.nrbpf_scanned) C.nrbpf_status) (Scanned, error) {
	if err := enter(); err != nil {
		return Scanned{}, err
	}
	defer s.lock.Unlock()
	var page C.nrbpf_scanned
	if err := told(call(&page)); err != nil {
		return Scanned{}, err
	}
	return Scanned{uint64(page.point), uint32(page.count), uint32(page.next)}, nil
}

// Question is one call of Read or Update.
type Question struct {
	Program  uint16
	Argument []byte
}

// MostQuestions is how many a ReadEach takes.
const MostQuestions = C.NRBPF_MOST_QUESTIONS

// ReadEach answers up to 16 reads at one point, and tells it. With none it brings the session's node up to what is completed. S1 to S3, and
// then the Slot of an *Error is the question's number; H2, H3, H5.
func (s *Session) ReadEach(questions []Question) (replies []uint64, point uint64, err error) {
	return s.readEach(s.enter, questions, func(at *C.nrbpf_question, count C.size_t, replies, point *C.uint64_t) C.nrbpf_status {
		return C.nrbpf_read_each(s.at, at, count, replies, point, &s.why)
	})
}

// TryReadEach is a ReadEach that waits for nobody: ErrBusy besides.
func (s *Session) TryReadEach(questions []Question) (replies []uint64, point uint64, err error) {
	return s.readEach(s.tryEnter, questions, func(at *C.nrbpf_question, count C.size_t, replies, point *C.uint64_t) C.nrbpf_status {
		return C.nrbpf_try_read_each(s.at, at, count, replies, point, &s.why)
	})
}

func (s *Session) readEach(enter func() error, questions []Question, call func(*C.nrbpf_question, C.size_t, *C.uint64_t, *C.uint64_t) C.nrbpf_status) ([]uint64, uint64, error) {
	if err := enter(); err != nil {
		return nil, 0, err
	}
	defer s.lock.Unlock()
	at := asked(questions)
	defer C.free(unsafe.Pointer(at))
	room := make([]uint64, len(questions)+1)
	var point C.uint64_t
	status := call(at, C.size_t(len(questions)), (*C.uint64_t)(unsafe.Pointer(&room[0])), &point)
	if err := explained(status, &s.why); err != nil {
		return nil, 0, err
	}
	return room[:len(questions)], uint64(point), nil
}

// asked has questions and behind them their arguments in C's memory: what is passed may point to more there, which Go's memory may not.
func asked(questions []Question) *C.nrbpf_question {
	front, length := (len(questions)+1)*C.sizeof_nrbpf_question, 0
	for _, q := range questions {
		length += len(q.Argument)
	}
	at := zeros(front + length)
	given := unsafe.Slice((*C.nrbpf_question)(at), len(questions))
	behind := unsafe.Slice((*byte)(unsafe.Add(at, front)), length)
	for k, q := range questions {
		given[k] = C.nrbpf_question{argument: unsafe.Add(at, front+length-len(behind)), len: C.size_t(len(q.Argument)), program: C.uint16_t(q.Program)}
		behind = behind[copy(behind, q.Argument):]
	}
	return (*C.nrbpf_question)(at)
}
