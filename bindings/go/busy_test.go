package nrbpf_test

import (
	"errors"
	"sync/atomic"
	"testing"
	"time"

	"nrbpf"
)

// writing is a writer of a function.
type writing func()

func (w writing) Write(piece []byte) (int, error) {
	w()
	return len(piece), nil
}

// While a dump's writer runs, another goroutine takes a snapshot into the same state. The writer may call on that goroutine's session.
func TestWriterCallsBesideASnapshot(t *testing.T) {
	store := opened(t, "counter", 0)
	session := attached(t, store, 0)
	must(session.Update(bump, u32(0)))
	state := must(store.NewState())
	defer state.Free()
	must(session.Snapshot(state))
	told := make(chan uint64)
	must(0, state.Dump(writing(func() {
		go func() { told <- must(session.Snapshot(state)) }()
		time.Sleep(100 * time.Millisecond) // the snapshot has begun
		same(t, "a read", must(session.Read(peek, u32(0))).Reply, 1)
		refused(t, last(session.TrySnapshot(state)), nrbpf.ErrBusy)
	})))
	same(t, "the snapshot", <-told, 1)
}

// until asks a call until it answers this error: no other comes meanwhile. The store has but one session, so the library has nobody to wait for.
func until(t *testing.T, want error, call func() error) {
	t.Helper()
	for end := time.Now().Add(10 * time.Second); time.Now().Before(end); {
		err := call()
		if errors.Is(err, want) {
			return
		}
		if err != nil && !errors.Is(err, nrbpf.ErrNothingPosted) {
			t.Fatal(err)
		}
	}
	t.Fatalf("never told %v", want)
}

// meanwhile makes a call again and again in another goroutine, and answers what ends that.
func meanwhile(call func()) (end func()) {
	var isOver int32
	ended := make(chan struct{})
	go func() {
		defer close(ended)
		for atomic.LoadInt32(&isOver) == 0 {
			call()
		}
	}()
	return func() {
		atomic.StoreInt32(&isOver, 1)
		<-ended
	}
}

// A try waits for no goroutine that is in a call on the same session, which copies 8 MB here.
func TestTriesBesideACall(t *testing.T) {
	large := nrbpf.Manifest{Text: "map array 128 65536\nprogram five read 0 five\n", Files: map[string]string{"five": "b7000000050000009500000000000000"}}
	config := nrbpf.NewConfig(1, 1)
	config.Spare = 1
	store := must(nrbpf.Open(config, large))
	t.Cleanup(func() { must(0, store.Close()) })
	session := attached(t, store, 0)
	state, other := must(store.NewState()), must(store.NewState())
	defer state.Free()
	defer other.Free()
	defer meanwhile(func() { must(session.Snapshot(state)) })()
	key, value := u32(1), make([]byte, 128)
	until(t, nrbpf.ErrBusy, func() error { return last(session.TryRead(0, nil)) })
	until(t, nrbpf.ErrBusy, func() error {
		_, err := session.TryUpdate(1, nil) // nothing is installed there
		return err
	})
	until(t, nrbpf.ErrBusy, func() error { return last(session.TryGet(0, key, value)) })
	until(t, nrbpf.ErrBusy, func() error { return last(session.TryScan(0, 0, key, value)) })
	until(t, nrbpf.ErrBusy, func() error { _, _, err := session.TryReadEach(nil); return err })
	until(t, nrbpf.ErrBusy, func() error { return last(session.TryMapInfo(0)) })
	until(t, nrbpf.ErrBusy, func() error { return last(session.TryProgramInfo(0)) })
	until(t, nrbpf.ErrBusy, func() error { return last(session.TryStats()) })
	until(t, nrbpf.ErrBusy, func() error { return last(session.TrySnapshot(state)) })
	until(t, nrbpf.ErrBusy, func() error { return last(session.TrySnapshot(other)) })
	until(t, nrbpf.ErrBusy, func() error { return busyInstall(session.TryInstall(nrbpf.ModeRead, 0, fiveProgram)) })
	until(t, nrbpf.ErrBusy, func() error { return busyInstall(session.TryInstallWithin(nil, nrbpf.ModeRead, 0, fiveProgram)) })
	until(t, nrbpf.ErrPosted, func() error { return last(session.Poll()) })
}

// busyInstall is the error of an install, of which a place that is none is no error here.
func busyInstall(_ nrbpf.Answer, err error) error {
	if errors.Is(err, nrbpf.ErrNoPlace) {
		return nil
	}
	return err
}

func TestListsBesideAList(t *testing.T) {
	lane := laneOf(t, sized(t, nrbpf.MostSlots), 0, nrbpf.MostSlots)
	calls := countEach(make([]uint32, nrbpf.MostSlots)...)
	defer meanwhile(func() { must(lane.UpdateEach(calls)) })()
	until(t, nrbpf.ErrBusy, func() error { return last(lane.TryUpdateEach(nil)) })
	until(t, nrbpf.ErrPosted, func() error { return last(lane.PollEach()) })
}
