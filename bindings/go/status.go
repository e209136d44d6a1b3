package nrbpf

// #include <nrbpf.h>
import "C"

import (
	"errors"
	"unsafe"
)

// Status is why a call did not do what it was asked: a letter and a number of docs/REFUSALS.md. It is an error that errors.Is compares.
type Status uint32

// Refusal is the status of a letter and a number, as Refusal('V', 18).
func Refusal(letter byte, number uint8) Status { return Status(letter)<<8 | Status(number) }

// Error is what the status means, in a line that begins with its letter and number.
func (s Status) Error() string { return C.GoString(C.nrbpf_status_text(C.nrbpf_status(s))) }

// Two statuses of the calls with Try in their name, which refuse nothing.
const (
	ErrBusy   Status = C.NRBPF_BUSY   // another session, or another goroutine on this one, was in the way, and nothing is asked: call again, or let it be
	ErrPosted Status = C.NRBPF_POSTED // the update is posted and not yet answered: Poll goes on with it
)

// Of a manifest.
const (
	ErrBadLine         Status = C.NRBPF_BAD_LINE          // C1: no line of a manifest, or its program file is not among those given
	ErrBadDigits       Status = C.NRBPF_BAD_DIGITS        // C2: a program file is not hexadecimal digits
	ErrFileNotDecoded  Status = C.NRBPF_FILE_NOT_DECODED  // C3: it is no program; the inner refusal has the letter D
	ErrFileNotAccepted Status = C.NRBPF_FILE_NOT_ACCEPTED // C4: it is not accepted; the inner refusal has the letter V
	ErrTooMuch         Status = C.NRBPF_TOO_MUCH          // C5: too many maps or programs, or too large ones
	ErrNoMemoryToLoad  Status = C.NRBPF_NO_MEMORY_TO_LOAD // C6: no memory to load them
)

// Of a dump.
const (
	ErrNoMemoryForDump     Status = C.NRBPF_NO_MEMORY_FOR_DUMP     // E0: no memory for the text, or for what it says
	ErrBadDumpLine         Status = C.NRBPF_BAD_DUMP_LINE          // E1: no line of a dump
	ErrBadDumpMap          Status = C.NRBPF_BAD_DUMP_MAP           // E2: the manifest has no such map
	ErrBadDumpKey          Status = C.NRBPF_BAD_DUMP_KEY           // E3: the key is none of that map
	ErrBadDumpValue        Status = C.NRBPF_BAD_DUMP_VALUE         // E4: the value has another length than that map's
	ErrBadDumpOrder        Status = C.NRBPF_BAD_DUMP_ORDER         // E5: the line is out of order
	ErrBadDumpZeros        Status = C.NRBPF_BAD_DUMP_ZEROS         // E6: the value of an array is all zeros
	ErrDumpTooManyKeys     Status = C.NRBPF_DUMP_TOO_MANY_KEYS     // E7: the map has no room for the key
	ErrDumpBadProgram      Status = C.NRBPF_DUMP_BAD_PROGRAM       // E8: a program is none, or not accepted
	ErrDumpTooManyPrograms Status = C.NRBPF_DUMP_TOO_MANY_PROGRAMS // E9: there is no place for the program
)

// Of opening.
const (
	ErrOutOfLimits Status = C.NRBPF_OUT_OF_LIMITS // O1: a number of the configuration is out of its limits
	ErrNoMemory    Status = C.NRBPF_NO_MEMORY     // O2: no memory for the store or the state
	ErrOtherState  Status = C.NRBPF_OTHER_STATE   // O3: the state has other maps, or more or longer programs than there is room for
)

// Of a call on a store.
const (
	ErrUnknownProgram Status = C.NRBPF_UNKNOWN_PROGRAM // S1: unknown program
	ErrArgumentLength Status = C.NRBPF_ARGUMENT_LENGTH // S2: the argument has another length
	ErrOtherMode      Status = C.NRBPF_OTHER_MODE      // S3: the program has the other mode
	ErrFull           Status = C.NRBPF_FULL            // S4: the history has all its records: reads go on, updates do not
	ErrAttached       Status = C.NRBPF_ATTACHED        // S5: sessions are attached
	ErrTooLarge       Status = C.NRBPF_TOO_LARGE       // S6: the program to be installed or its argument is too large
	ErrNotDecoded     Status = C.NRBPF_NOT_DECODED     // S7: what is to be installed is no program
	ErrNotAccepted    Status = C.NRBPF_NOT_ACCEPTED    // S8: what is to be installed is not accepted
	ErrUnknownMap     Status = C.NRBPF_UNKNOWN_MAP     // S9: the store has no such map
	ErrUnknownPlace   Status = C.NRBPF_UNKNOWN_PLACE   // S10: the map has no such place
	ErrKeyLength      Status = C.NRBPF_KEY_LENGTH      // S11: the map's keys have another length
	ErrValueLength    Status = C.NRBPF_VALUE_LENGTH    // S12: the map's values have another length
)

// A host's mistake.
const (
	ErrNoSession     Status = C.NRBPF_NO_SESSION     // H1: the node has too few free sessions, or there is no such node
	ErrDetached      Status = C.NRBPF_DETACHED       // H2: the session or the lane is not attached
	ErrUnanswered    Status = C.NRBPF_UNANSWERED     // H3: an update is posted on this session or lane and not answered: Poll or PollEach comes first
	ErrNotUTF8       Status = C.NRBPF_NOT_UTF8       // H4: a text is not UTF-8
	ErrBadCall       Status = C.NRBPF_BAD_CALL       // H5: no such mode, a list that is too long, or a lane of no or more than 16 slots
	ErrOtherVersion  Status = C.NRBPF_OTHER_VERSION  // H8: this package was compiled with a header that the library does not know
	ErrOtherSizes    Status = C.NRBPF_OTHER_SIZES    // H9: the state has other maps, another number of places or other LongBytes than the store
	ErrNothingPosted Status = C.NRBPF_NOTHING_POSTED // H11: no update is posted on this session or lane
)

// ErrClosed is told of a store that was closed and of a state that was freed.
var ErrClosed = errors.New("nrbpf: it is closed")

// ErrNoPlace is told of an install that found no free place. It is in the history, at the Point of its Answer, and did nothing.
var ErrNoPlace = errors.New("nrbpf: there is no free place for the program")

// Error is a refusal that says more than its status. What does not apply is 0. errors.Is compares it with its status, and with what is
// wrong with the program.
type Error struct {
	Status Status
	Inner  Status // of C3, C4, E8, S7 and S8: what is wrong with the program, with the letter D or V
	Line   uint32 // of the manifest, or with the letter E of the dump, from 1
	Slot   uint32 // of the program that Inner is of; of ReadEach and UpdateEach the call's number; from 0
}

// Error is a line such as "line 3: C4: the program is not accepted: slot 5: V14: ..".
func (e *Error) Error() string {
	why := C.nrbpf_error{status: C.nrbpf_status(e.Status), inner: C.nrbpf_status(e.Inner), line: C.uint32_t(e.Line), slot: C.uint32_t(e.Slot)}
	text := make([]byte, 256)
	for {
		n := int(C.nrbpf_error_text(&why, (*C.char)(unsafe.Pointer(&text[0])), C.size_t(len(text))))
		if n < len(text) {
			return string(text[:n])
		}
		text = make([]byte, n+1)
	}
}

// Unwrap is the status.
func (e *Error) Unwrap() error { return e.Status }

// Is holds of the inner refusal.
func (e *Error) Is(target error) bool {
	inner, is := target.(Status)
	return is && inner != 0 && inner == e.Inner
}

// told is the error of a call that tells a status.
func told(status C.nrbpf_status) error {
	if status == C.NRBPF_OK {
		return nil
	}
	return Status(status)
}

// explained is the error of a call that says more where it refuses.
func explained(status C.nrbpf_status, why *C.nrbpf_error) error {
	if status>>8 == 0 {
		return told(status)
	}
	return &Error{Status(status), Status(why.inner), uint32(why.line), uint32(why.slot)}
}
