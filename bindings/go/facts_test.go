package nrbpf_test

import (
	"fmt"
	"testing"

	"nrbpf"
)

// Puts its argument under the argument's first byte, in seven slots.
const putInMap0 = "bf12000000000000bf1300000000000018510000000000000000000000000000b70400000000000085000000020000009500000000000000"

func TestInfo(t *testing.T) {
	text := "map hash 1 2 16\nmap array 8 4\nprogram put update 2 put.hex\n"
	config := nrbpf.NewConfig(1, 2)
	config.Window, config.Spare, config.LongBytes = 64, 1, 200
	store := must(nrbpf.Open(config, nrbpf.Manifest{Text: text, Files: map[string]string{"put.hex": putInMap0}}))
	t.Cleanup(func() {
		if err := store.Close(); err != nil {
			t.Error(err)
		}
	})
	sizes := nrbpf.StoreInfo{Nodes: 1, Slots: 2, Window: 64, Limit: nrbpf.Endless, Spare: 1, Maps: 2, Programs: 1, LongBytes: 200}
	same(t, "the store", must(store.Info()), sizes)
	session := attached(t, store, 0)
	must(session.Update(0, []byte{7, 9}))
	same(t, "the hash", must(session.MapInfo(0)), nrbpf.MapInfo{Point: 1, Keys: 1, Entries: 16, Kind: nrbpf.Hash, KeyLen: 1, ValueLen: 2})
	same(t, "the array", must(session.TryMapInfo(1)), nrbpf.MapInfo{Point: 1, Keys: 4, Entries: 4, Kind: nrbpf.Array, KeyLen: 4, ValueLen: 8})
	refused(t, last(session.MapInfo(2)), nrbpf.ErrUnknownMap)

	told := func(it nrbpf.ProgramInfo) string {
		if it.Facts == nil {
			return fmt.Sprintf("%d %t %q", it.Point, it.IsPlace, it.Name)
		}
		return fmt.Sprintf("%d %t %q %v", it.Point, it.IsPlace, it.Name, *it.Facts)
	}
	same(t, "put", told(must(session.ProgramInfo(0))), `1 false "put" {0 2 7 [0]}`)
	same(t, "a free place", told(must(session.TryProgramInfo(1))), `1 true ""`)
	must(session.Install(nrbpf.ModeRead, 5, fiveProgram))
	same(t, "an installed program", told(must(session.ProgramInfo(1))), `2 true "" {1 5 2 []}`)
	refused(t, last(session.ProgramInfo(2)), nrbpf.ErrUnknownProgram)
}

func TestStats(t *testing.T) {
	store := must(nrbpf.Open(nrbpf.NewConfig(2, 2), nrbpf.Manifest{Text: "map array 8 4\nprogram five update 0 five.hex\n", Files: map[string]string{"five.hex": "b7000000050000009500000000000000"}}))
	t.Cleanup(func() {
		if err := store.Close(); err != nil {
			t.Error(err)
		}
	})
	own, other := attached(t, store, 0), attached(t, store, 1)
	must(own.Update(0, nil))
	must(own.Update(0, nil))
	same(t, "its own node", must(own.Stats()), nrbpf.Counts{Completed: 2, Appended: 2, Kept: 2, Tail: 2, Updates: 2})
	same(t, "the other node", must(other.TryStats()), nrbpf.Counts{Completed: 2, Appended: 2, Kept: 2, Lag: 2, Node: 1})
}
