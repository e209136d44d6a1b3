package main

import (
	"bufio"
	"errors"
	"fmt"
	"io"
	"net"
	"strings"
	"time"
)

// client asks the member that it takes for the leader.
type client struct {
	members []member
	leader  int
	at      net.Conn
	answers *bufio.Reader
}

// errUnknown is told where nobody knows whether an update will be made: it may have been, once.
var errUnknown = errors.New("the update may have been made")

func (c *client) leave() {
	if c.at != nil {
		c.at.Close()
		c.at = nil
	}
}

// exchange asks one member. It is told false where the line has not reached it.
func (c *client) exchange(line string, until time.Time) (answer string, reached bool, err error) {
	if c.at == nil {
		if c.at, err = net.DialTimeout("tcp", c.members[c.leader].clients, time.Second); err != nil {
			c.at = nil
			return "", false, err
		}
		c.answers = bufio.NewReader(c.at)
	}
	_ = c.at.SetDeadline(until)
	if _, err = fmt.Fprintln(c.at, line); err != nil {
		return "", true, err
	}
	if answer, err = c.answers.ReadString('\n'); err != nil {
		return "", true, err
	}
	answer = strings.TrimSuffix(answer, "\n")
	var index, length int
	if n, _ := fmt.Sscanf(answer, "dump %d %d", &index, &length); n == 2 {
		text := make([]byte, length)
		_, err = io.ReadFull(c.answers, text)
		return string(text), true, err
	}
	return answer, true, nil
}

// ask asks the members in turn until one answers as the leader does. With errUnknown it is not asked again: that is the caller's choice.
func (c *client) ask(line string, until time.Time) (string, error) {
	for time.Now().Before(until) {
		answer, reached, err := c.exchange(line, until)
		next := (c.leader + 1) % len(c.members)
		switch {
		case err != nil && reached, answer == "unknown":
			c.turn(next)
			return "", errUnknown
		case err != nil, answer == "no leader":
			c.turn(next)
			time.Sleep(50 * time.Millisecond)
		case strings.HasPrefix(answer, "leader "):
			for k, it := range c.members {
				if it.name == strings.TrimPrefix(answer, "leader ") {
					next = k
				}
			}
			c.turn(next)
		default:
			return answer, nil
		}
	}
	return "", fmt.Errorf("nobody answered %q in time", line)
}

func (c *client) turn(to int) {
	c.leave()
	c.leader = to
}
