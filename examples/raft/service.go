package main

import (
	"bufio"
	"errors"
	"fmt"
	"net"
	"strings"
	"sync"
	"sync/atomic"
	"time"

	"github.com/hashicorp/raft"

	"nrbpf"
)

// patience is how long the leader tries to have an entry stored by a majority.
const patience = 5 * time.Second

// service answers the lines of clients.
type service struct {
	members []member
	self    int
	group   *raft.Raft
	store   *replica
	at      net.Listener
	lock    sync.Mutex
	clients map[net.Conn]bool // null once it is stopped
	busy    sync.WaitGroup
}

func serve(members []member, self int, group *raft.Raft, store *replica) (*service, error) {
	at, err := net.Listen("tcp", members[self].clients)
	if err != nil {
		return nil, err
	}
	s := &service{members: members, self: self, group: group, store: store, at: at, clients: map[net.Conn]bool{}}
	go func() {
		for {
			client, err := at.Accept()
			if err != nil {
				return
			}
			s.welcome(client)
		}
	}()
	return s, nil
}

func (s *service) welcome(client net.Conn) {
	s.lock.Lock()
	defer s.lock.Unlock()
	if s.clients == nil {
		client.Close()
		return
	}
	s.clients[client] = true
	s.busy.Add(1)
	go func() {
		defer s.busy.Done()
		lines := bufio.NewScanner(client)
		for lines.Scan() {
			if _, err := client.Write(s.answer(lines.Text())); err != nil {
				break
			}
		}
		s.lock.Lock()
		delete(s.clients, client)
		s.lock.Unlock()
		client.Close()
	}()
}

// stop sends the clients away, and waits until they are.
func (s *service) stop() {
	s.at.Close()
	s.lock.Lock()
	for client := range s.clients {
		client.Close()
	}
	s.clients = nil
	s.lock.Unlock()
	s.busy.Wait()
}

// answer is a line, of a dump with the dump behind it.
func (s *service) answer(line string) []byte {
	words := strings.Fields(line)
	if len(words) == 0 {
		return []byte("bad\n")
	}
	switch words[0] {
	case "update", "install":
		return []byte(s.update(words[0], line) + "\n")
	case "read":
		index, answer, err := s.store.read(words[1:])
		return told(err, "read %d reply %d", index, answer.Reply)
	case "dump":
		index, text, err := s.store.dump()
		return append(told(err, "dump %d %d", index, len(text)), text...)
	case "snapshot":
		return told(s.group.Snapshot().Error(), "snapshot")
	case "barrier":
		if err := s.group.Barrier(patience).Error(); err != nil {
			return []byte(s.unanswered(err) + "\n")
		}
		return told(nil, "barrier %d", atomic.LoadUint64(&s.store.index))
	case "status":
		return told(nil, "status %v %d restores %d", s.group.State(), atomic.LoadUint64(&s.store.index), atomic.LoadUint64(&s.store.restores))
	}
	return []byte("bad\n")
}

func told(err error, format string, values ...interface{}) []byte {
	if err != nil {
		return []byte("refused " + err.Error() + "\n")
	}
	return []byte(fmt.Sprintf(format+"\n", values...))
}

// update has the line become an entry of the log, and tells what came of it here. The store judges it when it is applied, and so as every other does.
func (s *service) update(word, line string) string {
	entry := s.group.Apply([]byte(line), patience)
	if err := entry.Error(); err != nil {
		return s.unanswered(err)
	}
	answer, is := entry.Response().(nrbpf.Answer)
	if !is {
		return fmt.Sprintf("refused %v", entry.Response())
	}
	return fmt.Sprintf("%s %d reply %d", word, entry.Index(), answer.Reply)
}

// unanswered says who should be asked, or that nobody knows yet whether it will be an entry.
func (s *service) unanswered(err error) string {
	if !errors.Is(err, raft.ErrNotLeader) && !errors.Is(err, raft.ErrEnqueueTimeout) && !errors.Is(err, raft.ErrLeadershipTransferInProgress) {
		return "unknown"
	}
	leader := string(s.group.Leader())
	for k, it := range s.members {
		if it.peers == leader && k != s.self {
			return "leader " + it.name
		}
	}
	return "no leader"
}
