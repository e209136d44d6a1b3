package nrbpf

// #include "calls.h"
import "C"

// MapKind is the kind of a map.
type MapKind uint32

// The two kinds. The key of an array is its index in 4 bytes, the low one first.
const (
	Array MapKind = C.NRBPF_MAP_ARRAY
	Hash  MapKind = C.NRBPF_MAP_HASH
)

// MapInfo is what a map is.
type MapInfo struct {
	Point    uint64 // how many updates the map had seen
	Keys     uint64 // how many keys it has: an array always has all of its keys
	Entries  uint64 // how many it may have
	Kind     MapKind
	KeyLen   uint32 // how many bytes a key has
	ValueLen uint32 // how many bytes a value has
}

// ProgramInfo is what the program of a number is.
type ProgramInfo struct {
	Point   uint64        // how many updates were seen
	IsPlace bool          // whether the number is that of a spare place, and not of a program of the manifest
	Name    string        // its name in the manifest: an installed program has none
	Facts   *ProgramFacts // nil if nothing is installed at the place
}

// ProgramFacts is what a program was accepted for, and which maps it names.
type ProgramFacts struct {
	Mode        Mode
	ArgumentLen uint32   // how many bytes its argument has
	Slots       uint32   // how many slots of 8 bytes it has
	Maps        []uint32 // the maps that it names, in ascending order: it reads and changes no others
}

// StoreInfo is what a store is from its opening on.
type StoreInfo struct {
	Nodes, Slots, Window, Limit, Spare uint32 // as a Config has them
	Maps                               uint32 // how many maps it has
	Programs                           uint32 // how many programs its manifest has: the numbers of the spare places come after theirs
	LongBytes                          uint32 // as a Config has it
}

// Counts is what a store has done, how far the session's node has come, and what the session was asked for.
type Counts struct {
	Completed uint64 // how many updates of the history are completed: each answered update is one of them
	Appended  uint64 // how many updates the history has
	Kept      uint64 // how many of these the log keeps: no more than its window
	Tail      uint64 // how many updates the maps of the session's node have seen
	Lag       uint64 // how many completed updates these maps have still to see
	Updates   uint64 // how many updates and installs the session was asked for: reads are not counted
	Waits     uint64 // how many calls of the session waited for another session
	Batches   uint64 // how many batches of several updates it combined: one of its own, and others of its node that it took along
	Batched   uint64 // how many updates these batches had
	Largest   uint64 // how many updates the largest of them had
	Node      uint32 // the session's node
}

// Info is what a store is from its opening on.
func (s *Store) Info() (StoreInfo, error) {
	s.lock.RLock()
	defer s.lock.RUnlock()
	if s.at == nil {
		return StoreInfo{}, ErrClosed
	}
	var it C.nrbpf_store_facts
	if err := told(C.nrbpf_store_info(s.at, &it, C.sizeof_nrbpf_store_facts)); err != nil {
		return StoreInfo{}, err
	}
	return StoreInfo{
		Nodes: uint32(it.nodes), Slots: uint32(it.slots), Window: uint32(it.window), Limit: uint32(it.limit), Spare: uint32(it.spare),
		Maps: uint32(it.maps), Programs: uint32(it.programs), LongBytes: uint32(it.long_bytes),
	}, nil
}

// MapInfo is what a map is, counted from 0 as the manifest has them. S9, H2, H3.
func (s *Session) MapInfo(of uint32) (MapInfo, error) {
	return s.mapInfo(s.enter, func(it *C.nrbpf_map_facts) C.nrbpf_status {
		return C.nrbpf_map_info(s.at, C.uint32_t(of), it, C.sizeof_nrbpf_map_facts)
	})
}

// TryMapInfo is a MapInfo that waits for nobody: ErrBusy besides.
func (s *Session) TryMapInfo(of uint32) (MapInfo, error) {
	return s.mapInfo(s.tryEnter, func(it *C.nrbpf_map_facts) C.nrbpf_status {
		return C.nrbpf_try_map_info(s.at, C.uint32_t(of), it, C.sizeof_nrbpf_map_facts)
	})
}

func (s *Session) mapInfo(enter func() error, call func(*C.nrbpf_map_facts) C.nrbpf_status) (MapInfo, error) {
	if err := enter(); err != nil {
		return MapInfo{}, err
	}
	defer s.lock.Unlock()
	var it C.nrbpf_map_facts
	if err := told(call(&it)); err != nil {
		return MapInfo{}, err
	}
	return MapInfo{
		Point: uint64(it.point), Keys: uint64(it.keys), Entries: uint64(it.entries),
		Kind: MapKind(it.kind), KeyLen: uint32(it.key_len), ValueLen: uint32(it.value_len),
	}, nil
}

// ProgramInfo is what the program of a number is. S1, H2, H3.
func (s *Session) ProgramInfo(program uint16) (ProgramInfo, error) {
	return s.programInfo(s.enter, func(it *C.nrbpf_program_facts) C.nrbpf_status {
		return C.nrbpf_program_info(s.at, C.uint16_t(program), it, C.sizeof_nrbpf_program_facts)
	})
}

// TryProgramInfo is a ProgramInfo that waits for nobody: ErrBusy besides.
func (s *Session) TryProgramInfo(program uint16) (ProgramInfo, error) {
	return s.programInfo(s.tryEnter, func(it *C.nrbpf_program_facts) C.nrbpf_status {
		return C.nrbpf_try_program_info(s.at, C.uint16_t(program), it, C.sizeof_nrbpf_program_facts)
	})
}

func (s *Session) programInfo(enter func() error, call func(*C.nrbpf_program_facts) C.nrbpf_status) (ProgramInfo, error) {
	if err := enter(); err != nil {
		return ProgramInfo{}, err
	}
	defer s.lock.Unlock()
	var it C.nrbpf_program_facts
	if err := told(call(&it)); err != nil {
		return ProgramInfo{}, err
	}
	info := ProgramInfo{Point: uint64(it.point), IsPlace: it.is_place != 0, Name: C.GoString(&it.name[0])}
	if it.is_there != 0 {
		info.Facts = &ProgramFacts{Mode: Mode(it.mode), ArgumentLen: uint32(it.argument_len), Slots: uint32(it.slots), Maps: numbers(it.maps)}
	}
	return info, nil
}

// Stats is what the store has done, and how far the session's node has come: its first five counts are of one moment of the call. For the other nodes
// ask a session of each. H2, H3.
func (s *Session) Stats() (Counts, error) {
	return s.counts(s.enter, func(it *C.nrbpf_counts) C.nrbpf_status {
		return C.nrbpf_stats(s.at, it, C.sizeof_nrbpf_counts)
	})
}

// TryStats is a Stats that waits for nobody: ErrBusy besides.
func (s *Session) TryStats() (Counts, error) {
	return s.counts(s.tryEnter, func(it *C.nrbpf_counts) C.nrbpf_status {
		return C.nrbpf_try_stats(s.at, it, C.sizeof_nrbpf_counts)
	})
}

func (s *Session) counts(enter func() error, call func(*C.nrbpf_counts) C.nrbpf_status) (Counts, error) {
	if err := enter(); err != nil {
		return Counts{}, err
	}
	defer s.lock.Unlock()
	var it C.nrbpf_counts
	if err := told(call(&it)); err != nil {
		return Counts{}, err
	}
	return Counts{
		Completed: uint64(it.completed), Appended: uint64(it.appended), Kept: uint64(it.kept), Tail: uint64(it.tail), Lag: uint64(it.lag),
		Updates: uint64(it.updates), Waits: uint64(it.waits),
		Batches: uint64(it.batches), Batched: uint64(it.batched), Largest: uint64(it.largest), Node: uint32(it.node),
	}, nil
}

// numbers has the number of each map whose bit is set.
func numbers(bits C.uint16_t) []uint32 {
	var maps []uint32
	for m := uint32(0); m < 16; m++ {
		if bits>>m&1 == 1 {
			maps = append(maps, m)
		}
	}
	return maps
}
