package nrbpf_test

import (
	"errors"
	"fmt"
	"log"
	"os"

	"nrbpf"
)

// A store of counters, of which one is counted up, read, and saved.
func Example() {
	manifest, err := nrbpf.ReadManifest("examples/counter/manifest")
	if err != nil {
		log.Fatal(err)
	}
	store, err := nrbpf.Open(nrbpf.NewConfig(2, 4), manifest) // two nodes, four sessions of each
	if err != nil {
		log.Fatal(err)
	}
	defer store.Close()
	session, err := store.Attach(0)
	if err != nil {
		log.Fatal(err)
	}
	defer session.Detach()

	bump, _ := store.Program("bump")
	peek, _ := store.Program("peek")
	key := []byte{3, 0, 0, 0} // the counter's number, the low byte first
	update, err := session.Update(bump, key)
	fmt.Println("update", update.Point, "reply", update.Reply, err)
	read, err := session.Read(peek, key)
	fmt.Println("read", read.Point, "reply", read.Reply, err)
	_, err = session.Update(peek, key)
	fmt.Println("a read is no update:", errors.Is(err, nrbpf.ErrOtherMode))

	state, err := store.NewState()
	if err != nil {
		log.Fatal(err)
	}
	defer state.Free()
	point, err := session.Snapshot(state)
	fmt.Println("at point", point, err)
	if err := state.Dump(os.Stdout); err != nil {
		log.Fatal(err)
	}
	// Output:
	// update 0 reply 1 <nil>
	// read 1 reply 1 <nil>
	// a read is no update: true
	// at point 1 <nil>
	// 0 03000000 0100000000000000
}
