// How many proposals of 16 bytes a second three nodes of etcd's raft take in memory, one after the other, each applied at all three
// before the next.
//
//	raft PROPOSALS
//
// Prints the seconds and the messages between the nodes. It is built over Debian's packages golang-go and
// golang-etcd-server-dev by: GOPATH=/usr/share/gocode GO111MODULE=off go build
package main

import (
	"fmt"
	"os"
	"strconv"
	"time"

	"go.etcd.io/etcd/raft"
	"go.etcd.io/etcd/raft/raftpb"
)

const nodes = 3

// cluster has each node with its storage in memory, and counts what was applied and sent.
type cluster struct {
	nodes   [nodes]*raft.RawNode
	stores  [nodes]*raft.MemoryStorage
	applied [nodes]int
	sent    int
}

func started() *cluster {
	var it cluster
	var peers []raft.Peer
	for id := uint64(1); id <= nodes; id++ {
		peers = append(peers, raft.Peer{ID: id})
	}
	for place := range it.nodes {
		store := raft.NewMemoryStorage()
		config := &raft.Config{
			ID: uint64(place + 1), ElectionTick: 10, HeartbeatTick: 1, Storage: store, MaxSizePerMsg: 1 << 20, MaxInflightMsgs: 256,
		}
		node, err := raft.NewRawNode(config)
		must(err)
		must(node.Bootstrap(peers))
		it.nodes[place], it.stores[place] = node, store
	}
	it.settle()
	must(it.nodes[0].Campaign())
	it.settle()
	return &it
}

// settle carries messages and applies entries until nothing is left to do.
func (it *cluster) settle() {
	for busy := true; busy; {
		busy = false
		for place, node := range it.nodes {
			for node.HasReady() {
				busy = true
				it.do(place, node)
			}
		}
	}
}

// do does all that one node asks for.
func (it *cluster) do(place int, node *raft.RawNode) {
	ready := node.Ready()
	if !raft.IsEmptyHardState(ready.HardState) {
		must(it.stores[place].SetHardState(ready.HardState))
	}
	must(it.stores[place].Append(ready.Entries))
	for _, message := range ready.Messages {
		it.sent++
		it.nodes[message.To-1].Step(message)
	}
	for _, entry := range ready.CommittedEntries {
		if entry.Type == raftpb.EntryConfChange {
			var change raftpb.ConfChange
			must(change.Unmarshal(entry.Data))
			node.ApplyConfChange(change)
		} else if len(entry.Data) > 0 {
			it.applied[place]++
		}
	}
	node.Advance(ready)
}

func must(err error) {
	if err != nil {
		panic(err)
	}
}

func main() {
	proposals, err := strconv.Atoi(os.Args[1])
	must(err)
	raft.SetLogger(quiet{})
	it := started()
	payload := []byte("xxxxxxxxxxxxxxxx")
	it.sent = 0
	begin := time.Now()
	for count := 0; count < proposals; count++ {
		must(it.nodes[0].Propose(payload))
		it.settle()
	}
	took := time.Since(begin).Seconds()
	for _, applied := range it.applied {
		if applied != proposals {
			panic(fmt.Sprint("applied ", applied))
		}
	}
	fmt.Printf("%.3f %d\n", took, it.sent)
}

// quiet tells faults alone.
type quiet struct{}

func (quiet) Debug(...interface{})                 {}
func (quiet) Debugf(string, ...interface{})        {}
func (quiet) Error(...interface{})                 {}
func (quiet) Errorf(string, ...interface{})        {}
func (quiet) Info(...interface{})                  {}
func (quiet) Infof(string, ...interface{})         {}
func (quiet) Warning(...interface{})               {}
func (quiet) Warningf(string, ...interface{})      {}
func (quiet) Fatal(words ...interface{})           { panic(fmt.Sprint(words...)) }
func (quiet) Fatalf(form string, v ...interface{}) { panic(fmt.Sprintf(form, v...)) }
func (quiet) Panic(words ...interface{})           { panic(fmt.Sprint(words...)) }
func (quiet) Panicf(form string, v ...interface{}) { panic(fmt.Sprintf(form, v...)) }
