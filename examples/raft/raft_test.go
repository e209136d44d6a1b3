package main

import (
	"encoding/binary"
	"encoding/hex"
	"errors"
	"fmt"
	"math/rand"
	"net"
	"os"
	"os/exec"
	"path/filepath"
	"runtime"
	"sort"
	"strings"
	"sync"
	"sync/atomic"
	"syscall"
	"testing"
	"time"

	"github.com/hashicorp/raft"

	"nrbpf"
)

// A run has an end: so many steps of so many clients, and so much time in all. A process ends itself later than that.
const (
	clients = 4
	steps   = 200
	whole   = 100 * time.Second
	life    = "150s"
)

// The tests run in the top folder. With this variable the binary of the tests is a member.
func TestMain(m *testing.M) {
	for {
		if _, err := os.Stat("crates.txt"); err == nil {
			break
		}
		if err := os.Chdir(".."); err != nil {
			panic(err)
		}
	}
	if os.Getenv("NRBPF_RAFT_MEMBER") != "" {
		main()
		return
	}
	os.Exit(m.Run())
}

// group is three members, each a process with a folder.
type group struct {
	*testing.T
	until   time.Time
	folder  string
	file    string
	members []member
	running [3]*process
}

// process is a member that runs, until `over` is told how it has ended.
type process struct {
	*os.Process
	over chan error
}

func begin(t *testing.T) *group {
	g := &group{T: t, until: time.Now().Add(whole), folder: t.TempDir()}
	g.file = filepath.Join(g.folder, "members")
	addresses := free(t, 6)
	var text strings.Builder
	for k := range g.running {
		fmt.Fprintf(&text, "node%d %s %s\n", k, addresses[2*k], addresses[2*k+1])
	}
	g.check(os.WriteFile(g.file, []byte(text.String()), 0o600))
	members, err := readMembers(g.file)
	g.check(err)
	g.members = members
	t.Cleanup(g.end)
	for k := range g.running {
		g.start(k)
	}
	return g
}

// free is addresses of the loopback that nobody has now.
func free(t *testing.T, count int) []string {
	var found []string
	for range make([]int, count) {
		at, err := net.Listen("tcp", "127.0.0.1:0")
		if err != nil {
			t.Fatal(err)
		}
		defer at.Close()
		found = append(found, at.Addr().String())
	}
	return found
}

func (g *group) check(err error) {
	g.Helper()
	if err != nil {
		g.Fatal(err)
	}
}

func (g *group) log(k int) string { return filepath.Join(g.folder, g.members[k].name+".log") }

func (g *group) start(k int) {
	name := g.members[k].name
	log, err := os.OpenFile(g.log(k), os.O_CREATE|os.O_APPEND|os.O_WRONLY, 0o600)
	g.check(err)
	defer log.Close()
	it := exec.Command(os.Args[0], "-for", life, "-after", "64", "-keep", "16", g.file, name, filepath.Join(g.folder, name))
	it.Env = append(os.Environ(), "NRBPF_RAFT_MEMBER=1")
	it.Stdout, it.Stderr = log, log
	g.check(it.Start())
	g.running[k] = &process{it.Process, make(chan error, 1)}
	go func(over chan error) {
		over <- it.Wait()
		close(over)
	}(g.running[k].over)
}

// kill ends a member as a crash does.
func (g *group) kill(k int) {
	g.check(g.running[k].Kill())
	<-g.running[k].over
	g.running[k] = nil
}

// end ends what still runs, and shows what the members wrote if the test has failed.
func (g *group) end() {
	for k, it := range g.running {
		if it != nil {
			_ = it.Kill()
			<-it.over
		}
		if text, err := os.ReadFile(g.log(k)); err == nil && g.Failed() {
			g.Logf("%s:\n%s", g.members[k].name, text)
		}
	}
}

// ask asks one member alone.
func (g *group) ask(k int, line string) (string, error) {
	c := &client{members: g.members[k : k+1]}
	defer c.leave()
	return c.ask(line, g.soon())
}

// soon is ten seconds from now, but not behind the end.
func (g *group) soon() time.Time {
	if soon := time.Now().Add(10 * time.Second); soon.Before(g.until) {
		return soon
	}
	return g.until
}

type status struct {
	role            string
	index, restores uint64
}

func (g *group) status(k int) (it status) {
	if g.running[k] != nil {
		c := &client{members: g.members[k : k+1]}
		defer c.leave()
		if answer, _, err := c.exchange("status", g.soon()); err == nil {
			_, _ = fmt.Sscanf(answer, "status %s %d restores %d", &it.role, &it.index, &it.restores)
		}
	}
	return it
}

// await waits until something is so, and fails where it is not so in time.
func (g *group) await(what string, is func() bool) {
	g.Helper()
	for !is() {
		if time.Now().After(g.until) {
			g.Fatalf("not in time: %s", what)
		}
		for k, it := range g.running {
			if it != nil && len(it.over) > 0 {
				g.Fatalf("%s has ended: %v", g.members[k].name, <-it.over)
			}
		}
		time.Sleep(20 * time.Millisecond)
	}
}

func (g *group) leader() (found int) {
	g.await("a leader", func() bool {
		for k := range g.members {
			if g.status(k).role == "Leader" {
				found = k
				return true
			}
		}
		return false
	})
	return found
}

// catchUp waits until a member has applied what all others have answered.
func (g *group) catchUp(k int) {
	var index uint64
	c := &client{members: g.members}
	defer c.leave()
	g.await("a barrier", func() bool {
		answer, err := c.ask("barrier", g.soon())
		n, _ := fmt.Sscanf(answer, "barrier %d", &index)
		return err == nil && n == 1
	})
	g.await("to catch up", func() bool { return g.status(k).index >= index })
}

// compact has all that run give up the entries before a snapshot, so that who is behind can't be sent them.
func (g *group) compact() {
	for k, it := range g.running {
		if it != nil {
			_, err := g.ask(k, "snapshot")
			g.check(err)
		}
	}
}

// load is what the clients do: each has keys of its own, of which it knows at each time what stands there, and all raise one more.
type load struct {
	*group
	program  string // raises a key, once it is installed
	answered int64  // updates; atomic
	perhaps  int64  // times that the key of all may have been raised; atomic
	raised   sync.Map
	known    [clients]map[uint32]uint32
	all      sync.WaitGroup
}

// raising adds 1 to the value under a key, and replies it; -2 where there is no such key. Made twice it would add 2.
var raising = strings.Join([]string{
	"bf12000000000000",                     // mov64 r2, r1
	"1851000000000000", "0000000000000000", // ldmap r1, 0
	"8500000001000000", // call 1
	"1500050000000000", // jeq r0, 0, +5
	"6106000000000000", // ldxw r6, [r0+0]
	"0706000001000000", // add64 r6, 1
	"6360000000000000", // stxw [r0+0], r6
	"bf60000000000000", // mov64 r0, r6
	"9500000000000000", // exit
	"b7000000feffffff", // mov64 r0, -2
	"9500000000000000", // exit
}, "")

const ofAll = 0xffff

func hexOf(numbers ...uint32) string {
	var bytes []byte
	for _, number := range numbers {
		bytes = binary.LittleEndian.AppendUint32(bytes, number)
	}
	return hex.EncodeToString(bytes)
}

// stop ends a client.
func (l *load) stop(format string, values ...interface{}) {
	l.Errorf(format, values...)
	runtime.Goexit()
}

// make makes an update once. It tells false where it may have been made.
func (l *load) make(c *client, line string) (index, reply uint64, sure bool) {
	answer, err := c.ask(line, l.until)
	if errors.Is(err, errUnknown) {
		return 0, 0, false
	}
	_, rest, _ := strings.Cut(answer, " ")
	if n, _ := fmt.Sscanf(rest, "%d reply %d", &index, &reply); err != nil || n != 2 {
		l.stop("%s: %s, %v", line, answer, err)
	}
	atomic.AddInt64(&l.answered, 1)
	return index, reply, true
}

// The replies of the programs of examples/key_value.
const (
	done    uint64 = 0
	other   uint64 = 1         // cas: another value stands there
	missing uint64 = 1<<64 - 2 // there is no such key
)

// repeat makes an update until it is answered. Made twice it does no more than once, but may reply `again` then.
func (l *load) repeat(c *client, line string, first, again uint64) {
	for tries := 0; ; tries++ {
		_, reply, sure := l.make(c, line)
		if !sure {
			continue
		}
		if reply != first && (tries == 0 || reply != again) {
			l.stop("%s: reply %d, not %d", line, reply, first)
		}
		return
	}
}

// raise raises the key of all by one, which no two are told alike, and then asks some member: one that has seen the update tells at least that.
func (l *load) raise(c *client) {
	index, reply, sure := l.make(c, "update "+l.program+" "+hexOf(ofAll))
	if !sure {
		atomic.AddInt64(&l.perhaps, 1)
		return
	}
	if _, twice := l.raised.LoadOrStore(reply, true); twice {
		l.stop("two were told %d", reply)
	}
	some := int(reply % uint64(len(l.members)))
	reader := &client{members: l.members[some : some+1]}
	defer reader.leave()
	var seen, value uint64
	answer, _, err := reader.exchange("read get "+hexOf(ofAll), l.soon())
	n, _ := fmt.Sscanf(answer, "read %d reply %d", &seen, &value)
	if err == nil && (n != 2 || seen >= index && (value == missing || value < reply)) {
		l.stop("behind %d, where it was raised to %d: %s", index, reply, answer)
	}
}

// work is the steps of a client.
func (l *load) work(who int) {
	defer l.all.Done()
	c := &client{members: l.members, leader: who % len(l.members)}
	defer c.leave()
	random, known := rand.New(rand.NewSource(int64(who))), map[uint32]uint32{}
	for step := uint32(0); step < steps; step++ {
		key := uint32(who*16 + random.Intn(16))
		old, there := known[key]
		switch chosen := random.Intn(8); {
		case chosen < 3:
			l.repeat(c, "update put "+hexOf(key, step), done, done)
			known[key] = step
		case chosen < 5 && there:
			l.repeat(c, "update cas "+hexOf(key, old, 1000+step), done, other)
			known[key] = 1000 + step
		case chosen < 5:
			l.repeat(c, "update cas "+hexOf(key, old, step), missing, missing)
		case chosen < 6 && there:
			l.repeat(c, "update del "+hexOf(key), done, missing)
			delete(known, key)
		case chosen < 6:
			l.repeat(c, "update del "+hexOf(key), missing, missing)
		default:
			l.raise(c)
		}
	}
	l.known[who] = known
}

func (g *group) load() *load {
	l := &load{group: g}
	c := &client{members: g.members}
	defer c.leave()
	_, number, sure := l.make(c, "install update 4 "+raising)
	if !sure {
		g.Fatal("nobody was killed yet")
	}
	l.program = fmt.Sprint(number)
	l.repeat(c, "update put "+hexOf(ofAll, 0), done, done)
	for who := range l.known {
		l.all.Add(1)
		go l.work(who)
	}
	return l
}

func (l *load) awaitAnswers(count int64) {
	l.await(fmt.Sprintf("%d updates", count), func() bool { return atomic.LoadInt64(&l.answered) >= count })
}

// dump is the state as docs/FORMATS.md writes it, of what the clients know, with this value of the key of all.
func (l *load) dump(value uint32) string {
	var lines []string
	for _, known := range append(l.known[:], map[uint32]uint32{ofAll: value}) {
		for key, value := range known {
			lines = append(lines, "0 "+hexOf(key)+" "+hexOf(value)+"\n")
		}
	}
	sort.Strings(lines)
	return strings.Join(lines, "") + "p update 4 " + raising + "\n"
}

// Three processes, of which the leader is killed twice while clients make updates. Then their dumps are the same byte for byte, and what the
// clients were answered stands in them.
func TestLeaderIsKilledTwice(t *testing.T) {
	g := begin(t)
	g.leader()
	l := g.load()
	for _, count := range []int64{100, 400} {
		l.awaitAnswers(count)
		old := g.leader()
		g.kill(old)
		l.awaitAnswers(count + 150)
		g.compact()
		g.start(old)
		g.catchUp(old)
		if it := g.status(old); it.restores == 0 {
			t.Errorf("%s has caught up without a snapshot", g.members[old].name)
		}
	}
	l.all.Wait()
	var dumps [3]string
	for k := range dumps {
		g.catchUp(k)
		dump, err := g.ask(k, "dump")
		g.check(err)
		dumps[k] = dump
	}
	if dumps[0] != dumps[1] || dumps[1] != dumps[2] {
		t.Fatalf("the dumps differ:\n%s\n%s\n%s", dumps[0], dumps[1], dumps[2])
	}
	value, raised := l.value(dumps[0]), int64(0)
	l.raised.Range(func(_, _ interface{}) bool { raised++; return true })
	if int64(value) < raised || int64(value) > raised+l.perhaps {
		t.Errorf("%d times raised for sure, %d perhaps, and it is %d", raised, l.perhaps, value)
	}
	if want := l.dump(value); dumps[0] != want {
		t.Errorf("the dump:\n%s\nwhat the clients know:\n%s", dumps[0], want)
	}
	for k, it := range g.running {
		g.check(it.Signal(syscall.SIGTERM))
		g.check(<-it.over)
		g.running[k] = nil
	}
	fmt.Printf("raft: the leader was killed twice in %d updates; three dumps of %d bytes are the same, %.0f s\n", l.answered, len(dumps[0]),
		(whole - time.Until(g.until)).Seconds())
}

// value is that of the key of all.
func (l *load) value(dump string) uint32 {
	before := "0 " + hexOf(ofAll) + " "
	at := strings.Index(dump, before)
	if at < 0 {
		l.Fatalf("no key of all:\n%s", dump)
	}
	bytes, err := hex.DecodeString(dump[at+len(before) : at+len(before)+8])
	l.check(err)
	return binary.LittleEndian.Uint32(bytes)
}

// Entries that are applied as a batch are answered as one by one: updates of every kind, an install between them, and lines that are refused.
func TestBatch(t *testing.T) {
	manifest, err := nrbpf.ReadManifest("examples/raft/manifest")
	if err != nil {
		t.Fatal(err)
	}
	lines := []string{"update put " + hexOf(1, 10), "update put " + hexOf(2, 20), "update cas " + hexOf(1, 10, 11), "update cas " + hexOf(1, 10, 12),
		"install read 0 b700000005000000" + "9500000000000000", "update del " + hexOf(2), "update put " + hexOf(3), "update none -", "", "update put " + hexOf(3, 30)}
	for k := uint32(0); k < 20; k++ {
		lines = append(lines, "update put "+hexOf(k, 2*k))
	}
	var entries []*raft.Log
	for k, line := range lines {
		entries = append(entries, &raft.Log{Index: uint64(k + 1), Type: raft.LogCommand, Data: []byte(line)})
	}
	entries = append(entries, &raft.Log{Index: uint64(len(entries) + 1), Type: raft.LogConfiguration})
	var dumps, answers [2]string
	for way := range dumps {
		store, err := newReplica(manifest)
		if err != nil {
			t.Fatal(err)
		}
		var told []interface{}
		for _, entry := range entries {
			if way == 0 && entry.Type == raft.LogCommand {
				told = append(told, store.Apply(entry))
			}
		}
		if way == 1 {
			told = store.ApplyBatch(entries)[:len(lines)]
		}
		_, text, err := store.dump()
		if err == nil {
			err = store.close()
		}
		if err != nil {
			t.Fatal(err)
		}
		dumps[way], answers[way] = string(text), fmt.Sprint(told)
	}
	if dumps[0] != dumps[1] || answers[0] != answers[1] {
		t.Fatalf("one by one %s\n%s\nas a batch %s\n%s", answers[0], dumps[0], answers[1], dumps[1])
	}
}
