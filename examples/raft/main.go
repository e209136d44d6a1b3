// The command raft keeps a store of nrbpf in several processes, over hashicorp/raft. README.md says what it shows and how it is run.
//
//	raft [OPTIONS] MEMBERS NAME FOLDER     be the member NAME, with the files of its log and snapshots in FOLDER, until SIGINT or SIGTERM
//	raft -ask LINE MEMBERS                 have the members answer a line
//
// It runs in the top folder of the repository, since the manifest names its files from there.
package main

import (
	"flag"
	"fmt"
	"net"
	"os"
	"os/signal"
	"path/filepath"
	"strings"
	"syscall"
	"time"

	"github.com/hashicorp/raft"
	raftboltdb "github.com/hashicorp/raft-boltdb"

	"nrbpf"
)

// member is one of the processes: a line of the file MEMBERS.
type member struct {
	name    string
	peers   string // its address for the others
	clients string // and for clients
}

// readMembers reads lines `NAME ADDRESS ADDRESS`. Nobody has to show who he is, so an address that is not this machine's own is refused.
func readMembers(path string) ([]member, error) {
	text, err := os.ReadFile(path)
	if err != nil {
		return nil, err
	}
	var members []member
	for _, line := range strings.Split(strings.TrimSpace(string(text)), "\n") {
		words := strings.Fields(line)
		if len(words) != 3 {
			return nil, fmt.Errorf("%s: not NAME ADDRESS ADDRESS: %s", path, line)
		}
		for _, address := range words[1:] {
			host, _, err := net.SplitHostPort(address)
			if err != nil || !net.ParseIP(host).IsLoopback() {
				return nil, fmt.Errorf("%s: no address of the loopback: %s", path, address)
			}
		}
		members = append(members, member{words[0], words[1], words[2]})
	}
	return members, nil
}

type options struct {
	manifest string
	after    uint64        // entries from one snapshot to the next
	keep     uint64        // entries that are kept behind a snapshot
	life     time.Duration // 0: until a signal
}

func main() {
	var its options
	flag.StringVar(&its.manifest, "manifest", "examples/raft/manifest", "the manifest of the store")
	flag.Uint64Var(&its.after, "after", 8192, "take a snapshot after so many entries")
	flag.Uint64Var(&its.keep, "keep", 1024, "keep so many entries behind a snapshot")
	flag.DurationVar(&its.life, "for", 0, "end after this time")
	line := flag.String("ask", "", "have the members answer this line")
	flag.Parse()
	var err error
	switch {
	case *line != "" && flag.NArg() == 1:
		err = ask(flag.Arg(0), *line)
	case *line == "" && flag.NArg() == 3:
		err = run(&its, flag.Arg(0), flag.Arg(1), flag.Arg(2))
	default:
		flag.Usage()
		os.Exit(2)
	}
	if err != nil {
		fmt.Fprintln(os.Stderr, "raft:", err)
		os.Exit(1)
	}
}

func ask(path, line string) error {
	members, err := readMembers(path)
	if err != nil {
		return err
	}
	c := &client{members: members}
	defer c.leave()
	answer, err := c.ask(line, time.Now().Add(10*time.Second))
	if err == nil {
		_, err = fmt.Println(answer)
	}
	return err
}

// run is a member, until a signal or its time ends it.
func run(its *options, path, name, folder string) error {
	members, err := readMembers(path)
	if err != nil {
		return err
	}
	self := -1
	for k := range members {
		if members[k].name == name {
			self = k
		}
	}
	if self < 0 {
		return fmt.Errorf("%s: no member %s", path, name)
	}
	manifest, err := nrbpf.ReadManifest(its.manifest)
	if err != nil {
		return err
	}
	store, err := newReplica(manifest)
	if err != nil {
		return err
	}
	group, err := join(its, members, self, folder, store)
	if err != nil {
		return err
	}
	service, err := serve(members, self, group, store)
	if err != nil {
		return err
	}
	fmt.Println(name, "is ready")
	wait(its.life)
	service.stop()
	if err := group.Shutdown().Error(); err != nil {
		return err
	}
	return store.close()
}

// wait waits for a signal, or for so long, if that is not 0.
func wait(life time.Duration) {
	ends := make(chan os.Signal, 1)
	signal.Notify(ends, syscall.SIGINT, syscall.SIGTERM)
	var over <-chan time.Time
	if life > 0 {
		over = time.After(life)
	}
	select {
	case <-ends:
	case <-over:
	}
}

// join begins raft, on what lies in the folder. The first time the members agree on who they are by the file that each has.
func join(its *options, members []member, self int, folder string, store *replica) (*raft.Raft, error) {
	if err := os.MkdirAll(folder, 0o755); err != nil {
		return nil, err
	}
	log, err := raftboltdb.NewBoltStore(filepath.Join(folder, "log"))
	if err != nil {
		return nil, err
	}
	snapshots, err := raft.NewFileSnapshotStore(folder, 2, os.Stderr)
	if err != nil {
		return nil, err
	}
	peers, err := raft.NewTCPTransport(members[self].peers, nil, len(members), 5*time.Second, os.Stderr)
	if err != nil {
		return nil, err
	}
	config := raft.DefaultConfig()
	config.LocalID = raft.ServerID(members[self].name)
	config.LogLevel = "WARN"
	config.HeartbeatTimeout, config.ElectionTimeout, config.LeaderLeaseTimeout = 500*time.Millisecond, 500*time.Millisecond, 250*time.Millisecond
	config.SnapshotInterval, config.SnapshotThreshold, config.TrailingLogs = time.Second, its.after, its.keep
	known, err := raft.HasExistingState(log, log, snapshots)
	if err != nil {
		return nil, err
	}
	if !known {
		var all raft.Configuration
		for _, it := range members {
			all.Servers = append(all.Servers, raft.Server{ID: raft.ServerID(it.name), Address: raft.ServerAddress(it.peers)})
		}
		if err := raft.BootstrapCluster(config, log, log, snapshots, peers, all); err != nil {
			return nil, err
		}
	}
	return raft.NewRaft(config, store, log, log, snapshots, peers)
}
