package main

import (
	"bytes"
	"encoding/hex"
	"fmt"
	"io"
	"strconv"
	"strings"
	"sync"
	"sync/atomic"

	"github.com/hashicorp/raft"

	"nrbpf"
)

// readers is how many clients may read at once.
const readers = 8

// opened is a store with its sessions: one and a lane on a node of their own, which make the updates, and those that read.
type opened struct {
	store   *nrbpf.Store
	updates *nrbpf.Session
	lists   *nrbpf.Lane
	reads   chan *nrbpf.Session
}

// replica is the store of one process, as raft sees it: an entry of raft's log is an update, a snapshot a dump.
type replica struct {
	config   nrbpf.Config
	manifest nrbpf.Manifest
	lock     sync.RWMutex // of `in`: held for a change while a restore puts another store in its place
	in       *opened
	index    uint64 // of the last entry that was applied; atomic
	restores uint64 // since the process began; atomic
}

func newReplica(manifest nrbpf.Manifest) (*replica, error) {
	config := nrbpf.NewConfig(2, readers)
	config.Spare = 16
	store, err := nrbpf.Open(config, manifest)
	if err != nil {
		return nil, err
	}
	in, err := attach(store)
	return &replica{config: config, manifest: manifest, in: in}, err
}

func attach(store *nrbpf.Store) (*opened, error) {
	updates, err := store.Attach(0)
	if err != nil {
		return nil, err
	}
	lists, err := store.AttachLane(0, readers-1)
	if err != nil {
		return nil, err
	}
	in := &opened{store, updates, lists, make(chan *nrbpf.Session, readers)}
	for range [readers]int{} {
		session, err := store.Attach(1)
		if err != nil {
			return nil, err
		}
		in.reads <- session
	}
	return in, nil
}

func (in *opened) close() error {
	for range [readers]int{} {
		if err := (<-in.reads).Detach(); err != nil {
			return err
		}
	}
	if err := in.lists.Detach(); err != nil {
		return err
	}
	if err := in.updates.Detach(); err != nil {
		return err
	}
	return in.store.Close()
}

// call is an operation in words: a program, by its name or, where it was installed, its number, and an argument in hexadecimal digits.
func (in *opened) call(words []string) (uint16, []byte, error) {
	if len(words) != 2 {
		return 0, nil, nrbpf.ErrUnknownProgram
	}
	argument, err := bytesOf(words[1])
	if err != nil {
		return 0, nil, err
	}
	if number, err := strconv.ParseUint(words[0], 10, 16); err == nil {
		return uint16(number), argument, nil
	}
	number, err := in.store.Program(words[0])
	return number, argument, err
}

func bytesOf(digits string) ([]byte, error) {
	if digits == "-" {
		return nil, nil
	}
	return hex.DecodeString(digits)
}

// Apply is an update or an install, one behind another in the order of raft's log. What it answers goes to the client that asked here.
func (r *replica) Apply(entry *raft.Log) interface{} {
	answer, err := r.in.update(strings.Fields(string(entry.Data)))
	atomic.StoreUint64(&r.index, entry.Index)
	if err != nil {
		return err
	}
	return answer
}

// ApplyBatch is Apply of several entries, one behind another. Updates that stand side by side go to the store as a list.
func (r *replica) ApplyBatch(entries []*raft.Log) []interface{} {
	told := make([]interface{}, 0, len(entries))
	for len(told) < len(entries) {
		rest := entries[len(told):]
		if list := r.in.updateEach(rest); len(list) > 0 {
			told = append(told, list...)
			atomic.StoreUint64(&r.index, rest[len(list)-1].Index)
		} else if rest[0].Type == raft.LogCommand {
			told = append(told, r.Apply(rest[0]))
		} else {
			told = append(told, nil)
		}
	}
	return told
}

// updateEach makes the updates that these entries begin with by one call, and tells their answers: none where fewer than two are there, or one of
// them is refused.
func (in *opened) updateEach(entries []*raft.Log) []interface{} {
	calls := in.calls(entries)
	if len(calls) < 2 {
		return nil
	}
	outcomes, err := in.lists.UpdateEach(calls)
	if err != nil {
		return nil
	}
	told := make([]interface{}, len(outcomes))
	for k, it := range outcomes {
		// The stores are equal only if each has the log's order. A lane that alone updates a node keeps it.
		if k > 0 && it.Err == nil && it.Point <= outcomes[k-1].Point {
			panic("raft: the store has another order of updates than the log")
		}
		if told[k] = it.Answer; it.Err != nil {
			told[k] = it.Err
		}
	}
	return told
}

// calls are the updates that these entries begin with, no more than a list may have.
func (in *opened) calls(entries []*raft.Log) []nrbpf.Question {
	var calls []nrbpf.Question
	for _, entry := range entries {
		words := strings.Fields(string(entry.Data))
		if entry.Type != raft.LogCommand || len(calls) == in.lists.Slots() || len(words) == 0 || words[0] != "update" {
			break
		}
		number, argument, err := in.call(words[1:])
		if err != nil {
			break
		}
		calls = append(calls, nrbpf.Question{Program: number, Argument: argument})
	}
	return calls
}

func (in *opened) update(words []string) (nrbpf.Answer, error) {
	switch {
	case len(words) > 0 && words[0] == "update":
		number, argument, err := in.call(words[1:])
		if err != nil {
			return nrbpf.Answer{}, err
		}
		return in.updates.Update(number, argument)
	case len(words) == 4 && words[0] == "install":
		mode, is := map[string]nrbpf.Mode{"update": nrbpf.ModeUpdate, "read": nrbpf.ModeRead}[words[1]]
		length, err := strconv.ParseUint(words[2], 10, 32)
		program, other := bytesOf(words[3])
		if !is || err != nil || other != nil {
			return nrbpf.Answer{}, nrbpf.ErrBadCall
		}
		return in.updates.Install(mode, uint32(length), program)
	}
	return nrbpf.Answer{}, nrbpf.ErrBadCall
}

// read answers by what has been applied here, which others may be ahead of, and the index of an entry that it has seen.
func (r *replica) read(words []string) (uint64, nrbpf.Answer, error) {
	r.lock.RLock()
	defer r.lock.RUnlock()
	index := atomic.LoadUint64(&r.index)
	number, argument, err := r.in.call(words)
	if err != nil {
		return 0, nrbpf.Answer{}, err
	}
	session := <-r.in.reads
	defer func() { r.in.reads <- session }()
	answer, err := session.Read(number, argument)
	return index, answer, err
}

// dump is the state as text, and the index of an entry that it has seen.
func (r *replica) dump() (uint64, []byte, error) {
	r.lock.RLock()
	defer r.lock.RUnlock()
	index := atomic.LoadUint64(&r.index)
	session := <-r.in.reads
	defer func() { r.in.reads <- session }()
	state, err := taken(r.in.store, session)
	if err != nil {
		return 0, nil, err
	}
	defer state.Free()
	var text bytes.Buffer
	err = state.Dump(&text)
	return index, text.Bytes(), err
}

func taken(store *nrbpf.Store, session *nrbpf.Session) (*nrbpf.State, error) {
	state, err := store.NewState()
	if err != nil {
		return nil, err
	}
	if _, err := session.Snapshot(state); err != nil {
		state.Free()
		return nil, err
	}
	return state, nil
}

// snapshot is a state behind the entry that has this index.
type snapshot struct {
	state *nrbpf.State
	index uint64
}

// Snapshot copies the state while raft applies nothing: milliseconds. It is written while raft goes on.
func (r *replica) Snapshot() (raft.FSMSnapshot, error) {
	state, err := taken(r.in.store, r.in.updates)
	if err != nil {
		return nil, err
	}
	return &snapshot{state, atomic.LoadUint64(&r.index)}, nil
}

// Persist writes the index in a line, and then the dump.
func (s *snapshot) Persist(sink raft.SnapshotSink) error {
	_, err := fmt.Fprintf(sink, "%d\n", s.index)
	if err == nil {
		err = s.state.Dump(sink)
	}
	if err != nil {
		_ = sink.Cancel()
		return err
	}
	return sink.Close()
}

func (s *snapshot) Release() { s.state.Free() }

// Restore is a load: the store that it opens takes the place of the one that was there.
func (r *replica) Restore(from io.ReadCloser) error {
	defer from.Close()
	text, err := io.ReadAll(from)
	if err != nil {
		return err
	}
	line, dump, _ := bytes.Cut(text, []byte("\n"))
	index, err := strconv.ParseUint(string(line), 10, 64)
	if err != nil {
		return err
	}
	in, err := r.loaded(dump)
	if err != nil {
		return err
	}
	r.lock.Lock()
	defer r.lock.Unlock()
	old := r.in
	r.in = in
	atomic.StoreUint64(&r.index, index)
	atomic.AddUint64(&r.restores, 1)
	return old.close()
}

func (r *replica) loaded(dump []byte) (*opened, error) {
	state, err := nrbpf.Load(r.config, r.manifest, dump)
	if err != nil {
		return nil, err
	}
	defer state.Free()
	store, err := nrbpf.OpenOn(r.config, r.manifest, state)
	if err != nil {
		return nil, err
	}
	return attach(store)
}

func (r *replica) close() error {
	r.lock.Lock()
	defer r.lock.Unlock()
	return r.in.close()
}
