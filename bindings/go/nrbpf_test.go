package nrbpf_test

import (
	"bytes"
	"encoding/binary"
	"encoding/hex"
	"errors"
	"io"
	"io/fs"
	"math"
	"os"
	"strings"
	"sync"
	"sync/atomic"
	"testing"
	"testing/fstest"
	"time"

	"nrbpf"
)

// The tests run in the top folder, since manifests name their files from there.
func TestMain(m *testing.M) {
	if err := os.Chdir("../.."); err != nil {
		panic(err)
	}
	os.Exit(m.Run())
}

// must is a value that no error came with.
func must[T any](value T, err error) T {
	if err != nil {
		panic(err)
	}
	return value
}

// refused fails where this is not the error, and gives it with its place, if it has one.
func refused(t *testing.T, err, want error) *nrbpf.Error {
	t.Helper()
	if !errors.Is(err, want) {
		t.Fatalf("told %v, not %v", err, want)
	}
	var why *nrbpf.Error
	errors.As(err, &why)
	return why
}

func manifest(name string) nrbpf.Manifest {
	return must(nrbpf.ReadManifest("examples/" + name + "/manifest"))
}

// opened is a store of two nodes, which the test closes.
func opened(t *testing.T, name string, spare uint32) *nrbpf.Store {
	config := nrbpf.NewConfig(2, 2)
	config.Spare = spare
	store := must(nrbpf.Open(config, manifest(name)))
	t.Cleanup(func() {
		if err := store.Close(); err != nil {
			t.Error(err)
		}
	})
	return store
}

// attached is a session that the test gives back.
func attached(t *testing.T, store *nrbpf.Store, node uint32) *nrbpf.Session {
	session := must(store.Attach(node))
	t.Cleanup(func() {
		if err := session.Detach(); err != nil {
			t.Error(err)
		}
	})
	return session
}

// u32 is numbers of four bytes, the low byte first.
func u32(numbers ...uint32) []byte {
	var bytes []byte
	for _, number := range numbers {
		bytes = binary.LittleEndian.AppendUint32(bytes, number)
	}
	return bytes
}

func same[T comparable](t *testing.T, what string, got, want T) {
	t.Helper()
	if got != want {
		t.Errorf("%s: %v, not %v", what, got, want)
	}
}

func dumpOf(state *nrbpf.State) string {
	var text strings.Builder
	must(0, state.Dump(&text))
	return text.String()
}

// The counter's programs by their places in the manifest.
const (
	bump uint16 = iota
	peek
)

func TestVersion(t *testing.T) {
	same(t, "the major number", nrbpf.Version()/1000, 2)
	config := nrbpf.NewConfig(2, 4)
	same(t, "a configuration", config, nrbpf.Config{Nodes: 2, Slots: 4, Window: 4096, Limit: nrbpf.Endless})
}

func TestUpdateAndRead(t *testing.T) {
	store := opened(t, "counter", 0)
	one, other := attached(t, store, 0), attached(t, store, 1)
	same(t, "bump", must(store.Program("bump")), bump)
	same(t, "peek", must(store.Program("peek")), peek)
	same(t, "the first update", must(one.Update(bump, u32(3))), nrbpf.Answer{Point: 0, Reply: 1})
	same(t, "the second", must(other.Update(bump, u32(3))), nrbpf.Answer{Point: 1, Reply: 2})
	same(t, "a read behind both", must(one.Read(peek, u32(3))), nrbpf.Answer{Point: 2, Reply: 2})
	same(t, "a counter that is not there", must(one.Read(peek, u32(16))), nrbpf.Answer{Point: 2, Reply: 1<<64 - 1})
}

// An argument may lie in memory that has pointers elsewhere.
func TestArgumentInAStruct(t *testing.T) {
	type owner struct {
		name *string
		key  [4]byte
	}
	name := "three"
	of := &owner{name: &name, key: [4]byte{3}}
	session := attached(t, opened(t, "counter", 0), 0)
	same(t, "update", must(session.Update(bump, of.key[:])).Reply, 1)
	same(t, "read", must(session.Read(peek, of.key[:])).Reply, 1)
	questions := []nrbpf.Question{{Program: peek, Argument: of.key[:]}}
	replies, _, err := session.ReadEach(questions)
	same(t, "read each", must(replies, err)[0], 1)
}

func TestGoroutines(t *testing.T) {
	store := opened(t, "counter", 0)
	var all sync.WaitGroup
	for k := uint32(0); k < 4; k++ {
		session := attached(t, store, k%2)
		all.Add(1)
		go func() {
			defer all.Done()
			for range [1000]int{} {
				must(session.Update(bump, u32(3)))
			}
		}()
	}
	all.Wait()
	refused(t, last(store.Attach(1)), nrbpf.ErrNoSession)
}

// One session may be called from several goroutines: they wait for each other.
func TestSharedSession(t *testing.T) {
	store := opened(t, "counter", 0)
	session := attached(t, store, 0)
	var all sync.WaitGroup
	for range [4]int{} {
		all.Add(1)
		go func() {
			defer all.Done()
			for range [500]int{} {
				must(session.Update(bump, u32(0)))
			}
		}()
	}
	all.Wait()
	same(t, "counted", must(session.Read(peek, u32(0))), nrbpf.Answer{Point: 2000, Reply: 2000})
}

// answered is what a try ends with, if it is asked again while it is busy, and polled once it is posted.
func answered(session *nrbpf.Session, call func() (nrbpf.Answer, error)) (nrbpf.Answer, error) {
	answer, err := call()
	for errors.Is(err, nrbpf.ErrBusy) {
		answer, err = call()
	}
	for errors.Is(err, nrbpf.ErrPosted) {
		answer, err = session.Poll()
	}
	return answer, err
}

func TestTries(t *testing.T) {
	store := opened(t, "counter", 1)
	session := attached(t, store, 0)
	_, err := session.Poll()
	refused(t, err, nrbpf.ErrNothingPosted)
	for k := uint64(0); k < 100; k++ {
		update := must(answered(session, func() (nrbpf.Answer, error) { return session.TryUpdate(bump, u32(5)) }))
		same(t, "an update", update, nrbpf.Answer{Point: k, Reply: k + 1})
	}
	read := must(answered(session, func() (nrbpf.Answer, error) { return session.TryRead(peek, u32(5)) }))
	same(t, "a read", read, nrbpf.Answer{Point: 100, Reply: 100})
	five := must(answered(session, func() (nrbpf.Answer, error) { return session.TryInstall(nrbpf.ModeRead, 0, fiveProgram) }))
	same(t, "an install", five, nrbpf.Answer{Point: 100, Reply: 2})
	state := must(store.NewState())
	defer state.Free()
	for _, call := range []func() error{
		func() error { return last(session.TrySnapshot(state)) },
		func() error { return last(session.TryGet(0, u32(5), make([]byte, 8))) },
		func() error { return last(session.TryScan(0, 0, make([]byte, 4), make([]byte, 8))) },
		func() error { _, _, err := session.TryReadEach(nil); return err },
	} {
		for err = call(); errors.Is(err, nrbpf.ErrBusy); err = call() {
		}
		must(0, err)
	}
}

// While an update is posted and not answered the session takes no other call, and the history has it once. That takes others in the way.
func TestPosted(t *testing.T) {
	config := nrbpf.NewConfig(1, 4)
	store := must(nrbpf.Open(config, manifest("counter")))
	session := must(store.Attach(0))
	var made uint64
	var stopped int32
	var others sync.WaitGroup
	for range [3]int{} {
		others.Add(1)
		go count(must(store.Attach(0)), &made, &stopped, others.Done)
	}
	var err error
	for until := time.Now().Add(10 * time.Second); !errors.Is(err, nrbpf.ErrPosted) && time.Now().Before(until); {
		_, err = session.TryUpdate(bump, u32(0))
		if err == nil {
			atomic.AddUint64(&made, 1)
		}
	}
	if errors.Is(err, nrbpf.ErrPosted) {
		refused(t, last(session.Update(bump, u32(0))), nrbpf.ErrUnanswered)
		refused(t, last(session.Read(peek, u32(0))), nrbpf.ErrUnanswered)
		refused(t, last(session.Get(0, u32(0), make([]byte, 8))), nrbpf.ErrUnanswered)
		refused(t, session.Detach(), nrbpf.ErrUnanswered)
		must(answered(session, session.Poll))
		atomic.AddUint64(&made, 1)
	} else {
		t.Log("no update was in another's way")
	}
	atomic.StoreInt32(&stopped, 1)
	others.Wait()
	same(t, "each once", must(session.Read(peek, u32(0))), nrbpf.Answer{Point: made, Reply: made})
	must(0, session.Detach())
	must(0, store.Close())
}

// An install that finds no place is an error, also if it was posted. An update of the same reply that is posted later is none.
func TestNoPlaceBesideOthers(t *testing.T) {
	config := nrbpf.NewConfig(1, 4)
	config.Spare = 1
	store := must(nrbpf.Open(config, manifest("counter")))
	session := must(store.Attach(0))
	replies7 := must(hex.DecodeString("b7000000f9ffffff" + "9500000000000000")) // -7
	must(session.Install(nrbpf.ModeUpdate, 0, replies7))
	var made uint64
	var stopped int32
	var others sync.WaitGroup
	for range [3]int{} {
		others.Add(1)
		go count(must(store.Attach(0)), &made, &stopped, others.Done)
	}
	for posted, until := false, time.Now().Add(10*time.Second); !posted && time.Now().Before(until); {
		_, err := session.TryInstall(nrbpf.ModeRead, 0, fiveProgram)
		posted = errors.Is(err, nrbpf.ErrPosted)
		for errors.Is(err, nrbpf.ErrPosted) {
			_, err = session.Poll()
		}
		if !errors.Is(err, nrbpf.ErrBusy) {
			same(t, "no place left", errors.Is(err, nrbpf.ErrNoPlace), true)
		}
	}
	for range [1000]int{} {
		update := must(answered(session, func() (nrbpf.Answer, error) { return session.TryUpdate(2, nil) }))
		same(t, "an update", update.Reply, nrbpf.ReplyNoRoom)
	}
	atomic.StoreInt32(&stopped, 1)
	others.Wait()
	must(0, session.Detach())
	must(0, store.Close())
}

// count makes updates until it is stopped, and says how many.
func count(session *nrbpf.Session, made *uint64, stopped *int32, over func()) {
	defer over()
	for atomic.LoadInt32(stopped) == 0 {
		must(session.Update(bump, u32(0)))
		atomic.AddUint64(made, 1)
	}
	must(0, session.Detach())
}

// last is the error of a call that answers something.
func last[T any](_ T, err error) error { return err }

// fiveProgram replies 5: MOV of 64 bits and EXIT, as RFC 9669 codes them.
var fiveProgram = must(hex.DecodeString("b700000005000000" + "9500000000000000"))

func TestInstall(t *testing.T) {
	store := opened(t, "counter", 1)
	session := attached(t, store, 0)
	same(t, "no program yet", must(session.Update(2, nil)), nrbpf.Answer{Point: 0, Reply: nrbpf.ReplyInvalid})
	same(t, "an install", must(session.Install(nrbpf.ModeRead, 0, fiveProgram)), nrbpf.Answer{Point: 1, Reply: 2})
	same(t, "a call of it", must(session.Read(2, nil)), nrbpf.Answer{Point: 2, Reply: 5})
	for point := uint64(2); point < 100; point += 2 {
		answer, err := session.Install(nrbpf.ModeRead, 0, fiveProgram)
		same(t, "no place left", errors.Is(err, nrbpf.ErrNoPlace), true)
		same(t, "its answer", answer, nrbpf.Answer{Point: point, Reply: nrbpf.ReplyNoRoom})
		_, err = answered(session, func() (nrbpf.Answer, error) { return session.TryInstallWithin(nil, nrbpf.ModeRead, 0, fiveProgram) })
		same(t, "no place left", errors.Is(err, nrbpf.ErrNoPlace), true)
	}

	refused(t, last(session.Install(2, 0, fiveProgram)), nrbpf.ErrBadCall)
	refused(t, last(session.Install(nrbpf.ModeRead, 65, fiveProgram)), nrbpf.ErrTooLarge)
	refused(t, last(session.Install(nrbpf.ModeRead, 0, make([]byte, 200))), nrbpf.ErrTooLarge)
	why := refused(t, last(session.Install(nrbpf.ModeRead, 0, fiveProgram[:7])), nrbpf.ErrNotDecoded)
	same(t, "what is wrong with seven bytes", why.Inner, nrbpf.Refusal('D', 1))
	// drain.hex stores into a value at its slot 6.
	digits := strings.Join(strings.Fields(string(must(os.ReadFile("examples/install/drain.hex")))), "")
	why = refused(t, last(session.Install(nrbpf.ModeRead, 4, must(hex.DecodeString(digits)))), nrbpf.ErrNotAccepted)
	same(t, "a read that stores", *why, nrbpf.Error{Status: nrbpf.ErrNotAccepted, Inner: nrbpf.Refusal('V', 18), Slot: 6})
}

// sixProgram replies 6, and names map 0 in its slot 0.
var sixProgram = must(hex.DecodeString("1851000000000000" + "0000000000000000" + "b700000006000000" + "9500000000000000"))

func TestInstallWithin(t *testing.T) {
	store := opened(t, "counter", 2)
	session := attached(t, store, 0)
	same(t, "a map that it may name", must(session.InstallWithin([]uint32{0, 15, 99}, nrbpf.ModeRead, 0, sixProgram)), nrbpf.Answer{Point: 0, Reply: 2})
	same(t, "a call of it", must(session.Read(2, nil)), nrbpf.Answer{Point: 1, Reply: 6})
	wanted := nrbpf.Error{Status: nrbpf.ErrNotAccepted, Inner: nrbpf.Refusal('V', 16), Slot: 0}
	same(t, "another map", *refused(t, last(session.InstallWithin([]uint32{1}, nrbpf.ModeRead, 0, sixProgram)), nrbpf.ErrNotAccepted), wanted)
	same(t, "no map", *refused(t, last(session.TryInstallWithin(nil, nrbpf.ModeRead, 0, sixProgram)), nrbpf.ErrNotAccepted), wanted)
	five := must(answered(session, func() (nrbpf.Answer, error) { return session.TryInstallWithin(nil, nrbpf.ModeRead, 0, fiveProgram) }))
	same(t, "a program that names none", five, nrbpf.Answer{Point: 1, Reply: 3})
}

func TestRefusedCalls(t *testing.T) {
	store := opened(t, "counter", 0)
	session := attached(t, store, 0)
	refused(t, last(store.Program("drop")), nrbpf.ErrUnknownProgram)
	refused(t, last(store.Program("\xff")), nrbpf.ErrNotUTF8)
	refused(t, last(store.Attach(2)), nrbpf.ErrNoSession)
	refused(t, last(session.Update(2, u32(0))), nrbpf.ErrUnknownProgram)
	refused(t, last(session.Update(bump, nil)), nrbpf.ErrArgumentLength)
	refused(t, last(session.Update(peek, u32(0))), nrbpf.ErrOtherMode)
	refused(t, last(session.Read(bump, u32(0))), nrbpf.ErrOtherMode)
	refused(t, store.Close(), nrbpf.ErrAttached)
	refused(t, last(store.CloseInto()), nrbpf.ErrAttached)
	same(t, "the letter and the number of a text", nrbpf.ErrAttached.Error()[:4], "S5: ")
}

func TestFull(t *testing.T) {
	config := nrbpf.NewConfig(1, 1)
	config.Limit = 1
	store := must(nrbpf.Open(config, manifest("counter")))
	session := must(store.Attach(0))
	must(session.Update(bump, u32(0)))
	refused(t, last(session.Update(bump, u32(0))), nrbpf.ErrFull)
	same(t, "reads go on", must(session.Read(peek, u32(0))), nrbpf.Answer{Point: 1, Reply: 1})
	must(0, session.Detach())
	must(0, store.Close())
}

func TestSigned(t *testing.T) {
	session := attached(t, opened(t, "counter", 0), 0)
	same(t, "no key", must(session.Read(peek, u32(16))).Signed(), -1)
	for reply, signed := range map[uint64]int64{1<<64 - 2: -2, 1 << 63: math.MinInt64, 1<<63 - 1: math.MaxInt64} {
		same(t, "a reply", nrbpf.Answer{Reply: reply}.Signed(), signed)
	}
}

// A manifest and its files from a file system other than the working folder.
func TestManifestFS(t *testing.T) {
	files := fstest.MapFS{}
	want := manifest("counter")
	for name, text := range want.Files {
		files[name] = &fstest.MapFile{Data: []byte(text)}
	}
	files["kept/manifest"] = &fstest.MapFile{Data: []byte(want.Text)}
	got := must(nrbpf.ReadManifestFS(files, "kept/manifest"))
	same(t, "the text", got.Text, want.Text)
	same(t, "the files", len(got.Files), 2)
	store := must(nrbpf.Open(nrbpf.NewConfig(1, 1), got))
	var session io.Closer = must(store.Attach(0))
	must(0, session.Close())
	refused(t, session.Close(), nrbpf.ErrDetached)
	must(0, store.Close())
	delete(files, "examples/counter/peek.hex")
	refused(t, last(nrbpf.ReadManifestFS(files, "kept/manifest")), fs.ErrNotExist)
	refused(t, last(nrbpf.ReadManifestFS(files, "manifest")), fs.ErrNotExist)
}

func TestEnded(t *testing.T) {
	store := must(nrbpf.Open(nrbpf.NewConfig(1, 1), manifest("counter")))
	session := must(store.Attach(0))
	must(0, session.Detach())
	refused(t, session.Detach(), nrbpf.ErrDetached)
	refused(t, last(session.Update(bump, u32(0))), nrbpf.ErrDetached)
	state := must(store.CloseInto())
	refused(t, store.Close(), nrbpf.ErrClosed)
	refused(t, last(store.Attach(0)), nrbpf.ErrClosed)
	refused(t, last(store.NewState()), nrbpf.ErrClosed)
	refused(t, last(store.Program("bump")), nrbpf.ErrClosed)
	state.Free()
	state.Free()
	refused(t, state.Dump(&bytes.Buffer{}), nrbpf.ErrClosed)
	refused(t, last(nrbpf.OpenOn(nrbpf.NewConfig(1, 1), manifest("counter"), state)), nrbpf.ErrClosed)
}

func TestRefusedManifests(t *testing.T) {
	config, good := nrbpf.NewConfig(1, 1), manifest("counter")
	edited := func(old, new string) nrbpf.Manifest {
		return nrbpf.Manifest{Text: strings.Replace(good.Text, old, new, 1), Files: good.Files}
	}
	why := refused(t, last(nrbpf.Open(config, edited("bump update", "bump read"))), nrbpf.ErrFileNotAccepted)
	same(t, "an update is no read", *why, nrbpf.Error{Status: nrbpf.ErrFileNotAccepted, Inner: nrbpf.Refusal('V', 18), Line: 2, Slot: 7})
	refused(t, why, nrbpf.Refusal('V', 18))
	same(t, "its line", strings.HasPrefix(why.Error(), "line 2: C4: "), true)
	same(t, "its slot", strings.Contains(why.Error(), "slot 7: V18"), true)
	same(t, "a line", refused(t, last(nrbpf.Open(config, edited("peek", "peek peek"))), nrbpf.ErrBadLine).Line, 3)
	refused(t, last(nrbpf.Open(config, nrbpf.Manifest{Text: good.Text})), nrbpf.ErrBadLine)
	refused(t, last(nrbpf.Open(config, edited("counter", "\xff"))), nrbpf.ErrNotUTF8)
	with := func(digits string) nrbpf.Manifest {
		return nrbpf.Manifest{Text: good.Text, Files: map[string]string{"examples/counter/bump.hex": digits, "examples/counter/peek.hex": digits}}
	}
	same(t, "no digits", refused(t, last(nrbpf.Open(config, with("9z"))), nrbpf.ErrBadDigits).Line, 2)
	why = refused(t, last(nrbpf.Open(config, with("95"))), nrbpf.ErrFileNotDecoded)
	same(t, "a byte", *why, nrbpf.Error{Status: nrbpf.ErrFileNotDecoded, Inner: nrbpf.Refusal('D', 1), Line: 2})
	many := nrbpf.Manifest{Text: strings.Repeat("map array 8 1\n", 16) + good.Text, Files: good.Files}
	same(t, "17 maps", refused(t, last(nrbpf.Open(config, many)), nrbpf.ErrTooMuch).Line, 17)
	config.Slots = 17
	refused(t, last(nrbpf.Open(config, good)), nrbpf.ErrOutOfLimits)
	_, err := nrbpf.ReadManifest("examples/none/manifest")
	refused(t, err, os.ErrNotExist)
}

// A line that has not five words names no file. So the manifest is read, and the line is refused when a store opens.
func TestBadLinesNameNoFile(t *testing.T) {
	for _, line := range []string{"program ", "program gone", "program gone update 0 ", "program gone update 0 gone.hex ", "program gone update 0 gone hex"} {
		files := fstest.MapFS{"manifest": &fstest.MapFile{Data: []byte("map array 8 1\n" + line + "\n")}}
		read := must(nrbpf.ReadManifestFS(files, "manifest"))
		same(t, line, refused(t, last(nrbpf.Open(nrbpf.NewConfig(1, 1), read)), nrbpf.ErrBadLine).Line, 2)
	}
}
