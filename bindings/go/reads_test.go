package nrbpf_test

import (
	"bytes"
	"encoding/binary"
	"encoding/hex"
	"errors"
	"fmt"
	"io"
	"os"
	"runtime"
	"strings"
	"testing"

	"nrbpf"
)

// The programs of examples/key_value, a store of two keys, by their places in the manifest.
const (
	put uint16 = iota
	get
	del
)

func TestGet(t *testing.T) {
	session := attached(t, opened(t, "key_value", 0), 0)
	value := u32(1)
	same(t, "no key", must(session.Get(0, u32(7), value)), nrbpf.Found{Point: 0, IsThere: false})
	same(t, "the value as it was", bytes.Equal(value, u32(1)), true)
	same(t, "put", must(session.Update(put, u32(7, 9))).Reply, 0)
	same(t, "the key", must(session.Get(0, u32(7), value)), nrbpf.Found{Point: 1, IsThere: true})
	same(t, "the value", bytes.Equal(value, u32(9)), true)
	refused(t, last(session.Get(1, u32(7), value)), nrbpf.ErrUnknownMap)
	refused(t, last(session.Get(0, nil, value)), nrbpf.ErrKeyLength)
	refused(t, last(session.Get(0, u32(7), make([]byte, 8))), nrbpf.ErrValueLength)
}

// Pages of a map, one behind another, are its entries.
func TestScan(t *testing.T) {
	session := attached(t, opened(t, "counter", 0), 0)
	must(session.Update(bump, u32(13)))
	keys, values := make([]byte, 3*4), make([]byte, 3*8+7)
	var foundKeys, foundValues []byte
	for from := uint32(0); from != nrbpf.End; {
		page := must(session.Scan(0, from, keys, values))
		if page.Point != 1 || page.Count > 3 {
			t.Fatalf("a page of three: %v", page)
		}
		foundKeys = append(foundKeys, keys[:4*page.Count]...)
		foundValues = append(foundValues, values[:8*page.Count]...)
		from = page.Next
	}
	wantKeys, wantValues := u32(0, 1, 2, 3, 4, 5, 6, 7, 8, 9, 10, 11, 12, 13, 14, 15), make([]byte, 16*8)
	wantValues[13*8] = 1
	same(t, "keys", bytes.Equal(foundKeys, wantKeys), true)
	same(t, "values", bytes.Equal(foundValues, wantValues), true)
	refused(t, last(session.Scan(1, 0, keys, values)), nrbpf.ErrUnknownMap)
	refused(t, last(session.Scan(0, 17, keys, values)), nrbpf.ErrUnknownPlace)
}

func TestReadEach(t *testing.T) {
	session := attached(t, opened(t, "counter", 0), 0)
	must(session.Update(bump, u32(1)))
	must(session.Update(bump, u32(2)))
	must(session.Update(bump, u32(2)))
	var questions []nrbpf.Question
	for k := uint32(0); k < nrbpf.MostQuestions; k++ {
		questions = append(questions, nrbpf.Question{Program: peek, Argument: u32(k)})
	}
	replies, point, err := session.ReadEach(questions)
	must(0, err)
	same(t, "the point", point, 3)
	for k, reply := range replies {
		same(t, "a counter", reply, [nrbpf.MostQuestions]uint64{1: 1, 2: 2}[k])
	}
	replies, point, err = session.ReadEach(nil)
	same(t, "no question", len(must(replies, err)), 0)
	same(t, "the point of none", point, 3)

	_, _, err = session.ReadEach(append(questions, questions[0]))
	refused(t, err, nrbpf.ErrBadCall)
	questions[5].Program = bump
	_, _, err = session.ReadEach(questions)
	same(t, "the question's number", refused(t, err, nrbpf.ErrOtherMode).Slot, 5)
	questions[4].Argument = make([]byte, 100)
	_, _, err = session.ReadEach(questions)
	same(t, "the first one's number", refused(t, err, nrbpf.ErrArgumentLength).Slot, 4)
	questions[3].Program = 2
	_, _, err = session.ReadEach(questions)
	same(t, "the first one's number", refused(t, err, nrbpf.ErrUnknownProgram).Slot, 3)
}

// counterState is the state in docs/FORMATS.md: the counter 0 has 2.
const counterState = "0 00000000 0200000000000000\n"

func TestSnapshotDumpLoad(t *testing.T) {
	store := opened(t, "counter", 1)
	session := attached(t, store, 0)
	state := must(store.NewState())
	defer state.Free()
	same(t, "a new store's", dumpOf(state), "")
	must(session.Update(bump, u32(0)))
	must(session.Update(bump, u32(0)))
	same(t, "the point", must(session.Snapshot(state)), 2)
	must(session.Update(bump, u32(0)))
	same(t, "as of point 2", dumpOf(state), counterState)
	must(session.Install(nrbpf.ModeRead, 0, fiveProgram))
	same(t, "the next point", must(session.Snapshot(state)), 4)
	later := "0 00000000 0300000000000000\np read 0 b7000000050000009500000000000000\n"
	same(t, "with a program", dumpOf(state), later)

	config := nrbpf.NewConfig(1, 1)
	config.Spare = 1
	loaded := must(nrbpf.Load(config, manifest("counter"), []byte(later)))
	defer loaded.Free()
	same(t, "loaded and dumped", dumpOf(loaded), later)
	next := must(nrbpf.OpenOn(config, manifest("counter"), loaded))
	on := must(next.Attach(0))
	same(t, "the history begins anew", must(on.Update(bump, u32(0))), nrbpf.Answer{Point: 0, Reply: 4})
	same(t, "the program is there", must(on.Read(2, nil)).Reply, 5)
	must(0, on.Detach())
	ended := must(next.CloseInto())
	defer ended.Free()
	same(t, "what it ended in", dumpOf(ended), strings.Replace(later, "03", "04", 1))
}

// In a snapshot that is taken while others count, the counter is the point.
func TestSnapshotWhileOthersCount(t *testing.T) {
	store := opened(t, "counter", 0)
	taker := attached(t, store, 1)
	done := make(chan struct{})
	counting := attached(t, store, 0)
	go func() {
		defer close(done)
		for range [2000]int{} {
			must(counting.Update(bump, u32(0)))
		}
	}()
	config := nrbpf.NewConfig(1, 1)
	state := must(store.NewState())
	defer state.Free()
	for range [20]int{} {
		point := must(taker.Snapshot(state))
		on := must(nrbpf.OpenOn(config, manifest("counter"), state))
		reader := must(on.Attach(0))
		same(t, "the counter", must(reader.Read(peek, u32(0))), nrbpf.Answer{Point: 0, Reply: point})
		must(0, reader.Detach())
		must(0, on.Close())
	}
	<-done
}

func TestRefusedStates(t *testing.T) {
	store := opened(t, "counter", 1)
	session := attached(t, store, 0)
	config, counter := nrbpf.NewConfig(1, 1), manifest("counter")
	other := must(nrbpf.Load(config, manifest("key_value"), nil))
	defer other.Free()
	refused(t, last(session.Snapshot(other)), nrbpf.ErrOtherSizes)
	refused(t, last(nrbpf.OpenOn(config, counter, other)), nrbpf.ErrOtherState)
	five := "p read 0 b7000000050000009500000000000000\n"
	for _, it := range []struct {
		text string
		line uint32
		want nrbpf.Status
	}{
		{"0 00000000 0200000000000000", 1, nrbpf.ErrBadDumpLine},
		{"0 00000000 02000000000000\n", 1, nrbpf.ErrBadDumpValue},
		{counterState + counterState, 2, nrbpf.ErrBadDumpOrder},
		{"1 00000000 0200000000000000\n", 1, nrbpf.ErrBadDumpMap},
		{"0 10000000 0200000000000000\n", 1, nrbpf.ErrBadDumpKey},
		{counterState + "0 01000000 0000000000000000\n", 2, nrbpf.ErrBadDumpZeros},
		{five, 1, nrbpf.ErrDumpTooManyPrograms},
	} {
		same(t, it.text, refused(t, last(nrbpf.Load(config, counter, []byte(it.text))), it.want).Line, it.line)
	}
	three := "0 01000000 01000000\n0 02000000 01000000\n0 03000000 01000000\n"
	same(t, three, refused(t, last(nrbpf.Load(config, manifest("key_value"), []byte(three))), nrbpf.ErrDumpTooManyKeys).Line, 3)
	config.Spare = 1
	why := refused(t, last(nrbpf.Load(config, counter, []byte("p read 0 95000000\n"))), nrbpf.ErrDumpBadProgram)
	same(t, "half a slot", why.Inner, nrbpf.Refusal('D', 1))
	config.Spare = 4097
	refused(t, last(nrbpf.Load(config, counter, nil)), nrbpf.ErrOutOfLimits)
	refused(t, last(nrbpf.Load(nrbpf.NewConfig(1, 1), counter, []byte("\xff\n"))), nrbpf.ErrNotUTF8)
}

func TestLimits(t *testing.T) {
	config, past := nrbpf.NewConfig(1, 1), nrbpf.Manifest{Text: "map hash 8 8 65537\n"}
	same(t, "a map past the limits", refused(t, last(nrbpf.Open(config, past)), nrbpf.ErrBadLine).Line, 1)
	config.Limits = nrbpf.Large
	store, err := nrbpf.Open(config, past)
	if err != nil {
		t.Fatal(err)
	}
	store.Close()
	long := must(nrbpf.Open(config, nrbpf.Manifest{Text: "map array 16384 2\n"}))
	t.Cleanup(func() { long.Close() })
	session, value := attached(t, long, 0), []byte{16_383: 1}
	same(t, "a long value", must(session.Get(0, u32(1), value)).IsThere, true)
	same(t, "its zeros", bytes.Equal(value, make([]byte, 16_384)), true)
	config.Limits.Entries++
	refused(t, last(nrbpf.Open(config, past)), nrbpf.ErrOutOfLimits)
}

// The first program puts all bytes of its argument but the first four under these four. The second replies the last eight bytes of its own.
var longArguments = nrbpf.Manifest{
	Text: "map hash 4 16380 4\nprogram put update 16384 put\nprogram last read 16384 last\n",
	Files: map[string]string{
		"put":  "bf12000000000000bf13000000000000070300000400000018510000000000000000000000000000b70400000000000085000000020000009500000000000000",
		"last": "7910f83f000000009500000000000000",
	},
}

// A node reads what another has put, and one byte more is refused.
func TestLongArguments(t *testing.T) {
	config := nrbpf.NewConfig(2, 2)
	config.Limits.Value = 16_380
	same(t, "by the standard limits", refused(t, last(nrbpf.Open(config, longArguments)), nrbpf.ErrBadLine).Line, 2)
	config.Limits.Argument = 16_385
	refused(t, last(nrbpf.Open(config, longArguments)), nrbpf.ErrOutOfLimits)
	config.Limits = nrbpf.Large
	longer := nrbpf.Manifest{Text: strings.Replace(longArguments.Text, "put update 16384", "put update 16385", 1), Files: longArguments.Files}
	same(t, "by the largest", refused(t, last(nrbpf.Open(config, longer)), nrbpf.ErrBadLine).Line, 2)
	store := must(nrbpf.Open(config, longArguments))
	t.Cleanup(func() {
		if err := store.Close(); err != nil {
			t.Error(err)
		}
	})
	one, other, lane := attached(t, store, 0), attached(t, store, 1), laneOf(t, store, 0, 1)
	argument := make([]byte, 16_384)
	for k := range argument {
		argument[k] = byte(k + k>>8)
	}
	value, tail := make([]byte, 16_380), binary.LittleEndian.Uint64(argument[16_376:])
	same(t, "the update", must(one.Update(0, argument)), nrbpf.Answer{})
	same(t, "the key", must(other.Get(0, argument[:4], value)).IsThere, true)
	same(t, "the value", bytes.Equal(value, argument[4:]), true)
	same(t, "the read", must(other.Read(1, argument)), nrbpf.Answer{Point: 1, Reply: tail})
	same(t, "the list", must(lane.UpdateEach([]nrbpf.Question{{Program: 0, Argument: argument}}))[0].Point, 1)
	replies, _, err := other.ReadEach([]nrbpf.Question{{Program: 1, Argument: argument}})
	must(0, err)
	same(t, "one of several reads", replies[0], tail)
	argument = append(argument, 0)
	refused(t, last(one.Update(0, argument)), nrbpf.ErrArgumentLength)
	refused(t, last(one.TryUpdate(0, argument)), nrbpf.ErrArgumentLength)
	refused(t, last(one.Read(1, argument)), nrbpf.ErrArgumentLength)
	refused(t, last(lane.UpdateEach([]nrbpf.Question{{Program: 0, Argument: argument}})), nrbpf.ErrArgumentLength)
}

// fiveIn is a program of so many slots that replies 5.
func fiveIn(slots int) []byte {
	return append(bytes.Repeat(fiveProgram[:8], slots-1), fiveProgram[8:]...)
}

// A node has what another has installed, and so have stores that go on from its state and from its dump.
func TestLongPrograms(t *testing.T) {
	config, counter := nrbpf.NewConfig(2, 1), manifest("counter")
	config.Window, config.Spare, config.LongBytes = 16, 2, 16_384
	store := must(nrbpf.Open(config, counter))
	one, other := must(store.Attach(0)), must(store.Attach(1))
	argument := append(make([]byte, 16_383), 7)
	last8 := must(hex.DecodeString(longArguments.Files["last"]))
	same(t, "an install", must(one.Install(nrbpf.ModeRead, 0, fiveIn(2_048))), nrbpf.Answer{Point: 0, Reply: 2})
	same(t, "another", must(one.Install(nrbpf.ModeUpdate, 16_384, last8)), nrbpf.Answer{Point: 1, Reply: 3})
	same(t, "on the other node", must(other.Read(2, nil)), nrbpf.Answer{Point: 2, Reply: 5})
	same(t, "with an argument", must(other.Update(3, argument)), nrbpf.Answer{Point: 2, Reply: 7 << 56})
	same(t, "its slots", must(other.ProgramInfo(2)).Facts.Slots, 2_048)
	same(t, "its argument", must(other.ProgramInfo(3)).Facts.ArgumentLen, 16_384)
	for turn := uint64(0); turn < 100; turn++ {
		none, err := one.Install(nrbpf.ModeRead, 0, fiveIn(2_048))
		same(t, "no place", errors.Is(err, nrbpf.ErrNoPlace), true)
		same(t, "no room", none, nrbpf.Answer{Point: 3 + 2*turn, Reply: nrbpf.ReplyNoRoom})
		same(t, "a call", must(other.Update(3, argument)), nrbpf.Answer{Point: 4 + 2*turn, Reply: 7 << 56})
	}
	must(0, one.Detach())
	must(0, other.Detach())
	state := must(store.CloseInto())
	defer state.Free()
	text := "p read 0 " + hex.EncodeToString(fiveIn(2_048)) + "\np update 16384 " + longArguments.Files["last"] + "\n"
	loaded := must(nrbpf.Load(config, counter, []byte(text)))
	defer loaded.Free()
	for _, on := range []*nrbpf.State{state, loaded} {
		same(t, "the dump", dumpOf(on) == text, true)
		next := must(nrbpf.OpenOn(config, counter, on))
		session := must(next.Attach(1))
		same(t, "the program is there", must(session.Read(2, nil)).Reply, 5)
		same(t, "the other too", must(session.Update(3, argument)).Reply, 7<<56)
		must(0, session.Detach())
		must(0, next.Close())
	}
	config.LongBytes = 16_383
	refused(t, last(nrbpf.OpenOn(config, counter, state)), nrbpf.ErrOtherState)
	same(t, "its line", refused(t, last(nrbpf.Load(config, counter, []byte(text))), nrbpf.ErrBadDumpLine).Line, 1)
	config.LongBytes = 16_385
	refused(t, last(nrbpf.Open(config, counter)), nrbpf.ErrOutOfLimits)
	refused(t, last(nrbpf.Load(config, counter, nil)), nrbpf.ErrOutOfLimits)
}

// One slot too many, and one byte too many of an argument, by how much a store allows.
func TestLongInstalls(t *testing.T) {
	for _, it := range []struct{ longBytes, slots, argument uint32 }{{0, 24, 64}, {100, 24, 100}, {200, 25, 200}, {16_384, 2_048, 16_384}} {
		config := nrbpf.NewConfig(1, 1)
		config.Window, config.Spare, config.LongBytes = 16, 1, it.longBytes
		store := must(nrbpf.Open(config, manifest("counter")))
		session := must(store.Attach(0))
		refused(t, last(session.Install(nrbpf.ModeRead, 0, fiveIn(int(it.slots)+1))), nrbpf.ErrTooLarge)
		refused(t, last(session.TryInstall(nrbpf.ModeRead, it.argument+1, fiveProgram)), nrbpf.ErrTooLarge)
		refused(t, last(session.Update(2, make([]byte, it.argument+1))), nrbpf.ErrArgumentLength)
		same(t, "an install", must(session.Install(nrbpf.ModeRead, it.argument, fiveIn(int(it.slots)))), nrbpf.Answer{Point: 0, Reply: 2})
		same(t, "a read", must(session.Read(2, make([]byte, it.argument))), nrbpf.Answer{Point: 1, Reply: 5})
		must(0, session.Detach())
		must(0, store.Close())
	}
}

// full takes some bytes and then no more.
type full struct{ room int }

var errNoMore = errors.New("no more")

func (f *full) Write(piece []byte) (int, error) {
	if len(piece) > 16384 {
		return 0, io.ErrShortBuffer
	}
	f.room -= len(piece)
	if f.room < 0 {
		return 0, errNoMore
	}
	return len(piece), nil
}

type panics struct{}

func (panics) Write([]byte) (int, error) { panic("in the writer") }

// A writer that fails or panics ends the dump, and the state is as good as before.
func TestWriters(t *testing.T) {
	large := nrbpf.Manifest{Text: "map array 8 65536\nprogram five read 0 five\n", Files: map[string]string{"five": "b7000000050000009500000000000000"}}
	var text bytes.Buffer
	for k := 0; k < 256; k++ { // index 256 k, whose key has its low byte first: these stand in the order of k
		fmt.Fprintf(&text, "0 00%02x0000 %s\n", k, strings.Repeat("01", 8))
	}
	for k := 0; k < 256; k++ {
		fmt.Fprintf(&text, "0 01%02x0000 %s\n", k, strings.Repeat("02", 8))
	}
	for k := 0; k < 256; k++ {
		fmt.Fprintf(&text, "0 ff%02x0000 %s\n", k, strings.Repeat("03", 8))
	}
	state := must(nrbpf.Load(nrbpf.NewConfig(1, 1), large, text.Bytes()))
	defer state.Free()
	same(t, "the text", dumpOf(state), text.String())
	refused(t, state.Dump(&full{room: 20000}), errNoMore)
	must(0, state.Dump(&full{room: text.Len()}))
	func() {
		defer func() { same(t, "the panic goes on", recover() == "in the writer", true) }()
		_ = state.Dump(panics{})
	}()
	same(t, "the text again", dumpOf(state), text.String())
}

func TestManifestWithoutFile(t *testing.T) {
	path := t.TempDir() + "/manifest"
	must(0, os.WriteFile(path, []byte("map array 8 1\nprogram gone update 0 gone.hex\n"), 0o600))
	refused(t, last(nrbpf.ReadManifest(path)), os.ErrNotExist)
}

// ends ends the goroutine that writes to it, as t.Fatal does.
type ends struct{}

func (ends) Write([]byte) (int, error) {
	runtime.Goexit()
	return 0, nil
}

// A writer may end its goroutine. The state is as it was then, and takes calls.
func TestWriterThatEndsItsGoroutine(t *testing.T) {
	config, counter := nrbpf.NewConfig(1, 1), manifest("counter")
	state := must(nrbpf.Load(config, counter, []byte(counterState)))
	defer state.Free()
	ended := make(chan struct{})
	go func() {
		defer close(ended)
		state.Dump(ends{})
		t.Error("the writer returns")
	}()
	<-ended
	same(t, "the dump", dumpOf(state), counterState)
	store := must(nrbpf.OpenOn(config, counter, state))
	session := must(store.Attach(0))
	same(t, "the counter", must(session.Read(peek, u32(0))), nrbpf.Answer{Point: 0, Reply: 2})
	must(0, session.Detach())
	must(0, store.Close())
}
