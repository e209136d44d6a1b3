package nrbpf_test

import (
	"errors"
	"runtime"
	"sync"
	"testing"

	"nrbpf"
)

// countEach is a list of bumps of these counters.
func countEach(counters ...uint32) []nrbpf.Question {
	var calls []nrbpf.Question
	for _, k := range counters {
		calls = append(calls, nrbpf.Question{Program: bump, Argument: u32(k)})
	}
	return calls
}

func laneOf(t *testing.T, store *nrbpf.Store, node, slots uint32) *nrbpf.Lane {
	lane := must(store.AttachLane(node, slots))
	t.Cleanup(func() { must(0, lane.Close()) })
	return lane
}

// sized is a store of two nodes with so many slots, which the test closes.
func sized(t *testing.T, slots uint32) *nrbpf.Store {
	store := must(nrbpf.Open(nrbpf.NewConfig(2, slots), manifest("counter")))
	t.Cleanup(func() { must(0, store.Close()) })
	return store
}

// done is an update's answer, if it was done.
func done(it nrbpf.Outcome) nrbpf.Answer { return must(it.Answer, it.Err) }

func TestUpdateEach(t *testing.T) {
	lane := laneOf(t, sized(t, 3), 1, 3)
	same(t, "slots", lane.Slots(), 3)
	told := must(lane.UpdateEach(countEach(3, 3, 5)))
	for k, want := range []nrbpf.Answer{{Point: 0, Reply: 1}, {Point: 1, Reply: 2}, {Point: 2, Reply: 1}} {
		same(t, "an answer", done(told[k]), want)
	}
	same(t, "a try", done(must(lane.TryUpdateEach(countEach(3)))[0]), nrbpf.Answer{Point: 3, Reply: 3})
	same(t, "no call", len(must(lane.UpdateEach(nil))), 0)
	refused(t, last(lane.PollEach()), nrbpf.ErrNothingPosted)
}

func TestRefusedLists(t *testing.T) {
	store := sized(t, 4)
	lane := laneOf(t, store, 0, 3)
	calls := countEach(1, 2, 3)
	refused(t, last(lane.UpdateEach(countEach(1, 2, 3, 4))), nrbpf.ErrBadCall)
	calls[2].Program = 9
	same(t, "the call's number", refused(t, last(lane.UpdateEach(calls)), nrbpf.ErrUnknownProgram).Slot, 2)
	calls[1].Argument = nil
	same(t, "the first one's number", refused(t, last(lane.TryUpdateEach(calls)), nrbpf.ErrArgumentLength).Slot, 1)
	calls[0].Program = peek
	same(t, "the first one's number", refused(t, last(lane.UpdateEach(calls)), nrbpf.ErrOtherMode).Slot, 0)
	same(t, "nothing is asked", done(must(lane.UpdateEach(countEach(1)))[0]), nrbpf.Answer{Point: 0, Reply: 1})
	refused(t, last(store.AttachLane(0, 0)), nrbpf.ErrBadCall)
	refused(t, last(store.AttachLane(0, nrbpf.MostSlots+1)), nrbpf.ErrBadCall)
	refused(t, last(store.AttachLane(0, nrbpf.MostSlots)), nrbpf.ErrNoSession)
	refused(t, store.Close(), nrbpf.ErrAttached)
}

func TestListAtTheEnd(t *testing.T) {
	config := nrbpf.NewConfig(1, 4)
	config.Limit = 3
	store := must(nrbpf.Open(config, manifest("counter")))
	lane := must(store.AttachLane(0, 4))
	told := must(lane.UpdateEach(countEach(1, 1, 1, 1)))
	same(t, "the last that goes in", done(told[2]), nrbpf.Answer{Point: 2, Reply: 3})
	same(t, "the one after it", errors.Is(told[3].Err, nrbpf.ErrFull), true)
	must(0, lane.Detach())
	refused(t, lane.Detach(), nrbpf.ErrDetached)
	refused(t, last(lane.UpdateEach(nil)), nrbpf.ErrDetached)
	must(0, store.Close())
}

// Goroutines with lanes on two nodes are in each other's way: each update of each list is made once, in the order of its list.
func TestListsOfGoroutines(t *testing.T) {
	const lanes, lists = 4, 1000
	store := must(nrbpf.Open(nrbpf.NewConfig(2, 9), manifest("counter")))
	var all sync.WaitGroup
	for k := uint32(0); k < lanes; k++ {
		lane := must(store.AttachLane(k%2, 4))
		all.Add(1)
		go func() {
			defer all.Done()
			for list := 0; list < lists; list++ {
				told, err := lane.TryUpdateEach(countEach(1, 1, 1, 1))
				for err == nrbpf.ErrPosted {
					runtime.Gosched()
					told, err = lane.PollEach()
				}
				if err == nrbpf.ErrBusy {
					told, err = lane.UpdateEach(countEach(1, 1, 1, 1))
				}
				must(told, err)
				for at := 1; at < len(told); at++ {
					if told[at-1].Point >= told[at].Point {
						t.Errorf("out of order: %v", told)
					}
				}
			}
			must(0, lane.Close())
		}()
	}
	all.Wait()
	session := must(store.Attach(0))
	same(t, "the counter", must(session.Read(peek, u32(1))), nrbpf.Answer{Point: 4 * lanes * lists, Reply: 4 * lanes * lists})
	must(0, session.Close())
	must(0, store.Close())
}

func benchmarkEach(b *testing.B, size uint32) {
	store := must(nrbpf.Open(nrbpf.NewConfig(1, nrbpf.MostSlots), manifest("counter")))
	lane := must(store.AttachLane(0, size))
	calls := countEach(make([]uint32, size)...)
	b.ReportAllocs()
	b.ResetTimer()
	for k := 0; k < b.N; k += int(size) {
		must(lane.UpdateEach(calls))
	}
	b.StopTimer()
	must(0, lane.Close())
	must(0, store.Close())
}

func BenchmarkUpdateEach4(b *testing.B)  { benchmarkEach(b, 4) }
func BenchmarkUpdateEach16(b *testing.B) { benchmarkEach(b, 16) }
