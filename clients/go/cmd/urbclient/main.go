// Command urbclient publishes the lines of an input, and follows a log.
//
//	urbclient publish --port PORT --client C --file FILE    publishes each line of standard input once
//	urbclient follow --port PORT[,PORT..] --file FILE       prints each entry, for ever
//
// In place of --port PORT, --socket PATH names a node's Unix socket; to follow, also several.
// FILE keeps what is in progress and done. An input that is a file continues with its first line
// that isn't done; the lines of a pipe are new, unless --resume is given.
package main

import (
	"context"
	"encoding/hex"
	"flag"
	"fmt"
	"os"
	"os/signal"
	"strconv"
	"strings"

	"urbd.example/urbd"
)

func main() {
	ctx, cancel := signal.NotifyContext(context.Background(), os.Interrupt)
	defer cancel()
	if err := run(ctx, os.Args[1:]); err != nil && ctx.Err() == nil {
		fmt.Fprintln(os.Stderr, "urbclient:", err)
		os.Exit(1)
	}
}

func run(ctx context.Context, words []string) error {
	if len(words) == 0 || words[0] != "publish" && words[0] != "follow" {
		return fmt.Errorf("urbclient publish --port PORT --client C --file FILE | urbclient follow --port PORT[,PORT..] --file FILE (or --socket PATH)")
	}
	options := flag.NewFlagSet("urbclient "+words[0], flag.ExitOnError)
	ports := options.String("port", "", "the node's port for clients; to follow, also several")
	sockets := options.String("socket", "", "the path of the node's socket, in place of a port")
	file := options.String("file", "", "keeps what is in progress and done")
	client := options.Uint("client", 0, "your client number, 1 to 65535")
	resume := options.Bool("resume", false, "the input is that of an earlier run, from its start")
	fresh := options.Bool("new-input", false, "the input is a new one")
	options.Parse(words[1:])
	var told faults
	nodes, err := nodesAt(*ports, *sockets, told.tell)
	if err != nil {
		return err
	}
	if *file == "" {
		return fmt.Errorf("--file is missing")
	}
	if words[0] == "follow" {
		return follow(ctx, nodes, *file)
	}
	if *client < 1 || *client > 65535 {
		return fmt.Errorf("--client is 1 to 65535")
	}
	return publish(ctx, nodes[0], uint16(*client), *file, *resume || isFile(os.Stdin) && !*fresh)
}

// faults tells each fault once, until another one comes.
type faults struct{ last string }

func (f *faults) tell(fault error) {
	if text := fault.Error(); text != f.last {
		f.last = text
		fmt.Fprintln(os.Stderr, "urbclient: waits:", text)
	}
}

// nodesAt returns the nodes at these ports, or at these sockets. One of both is empty.
func nodesAt(ports, sockets string, onFault func(error)) ([]*urbd.Node, error) {
	var nodes []*urbd.Node
	if ports != "" && sockets != "" {
		return nil, fmt.Errorf("give --port or --socket, and not both")
	}
	if sockets != "" {
		for _, path := range strings.Split(sockets, ",") {
			nodes = append(nodes, &urbd.Node{Socket: path, OnFault: onFault})
		}
		return nodes, nil
	}
	for _, word := range strings.Split(ports, ",") {
		port, err := strconv.ParseUint(word, 10, 16)
		if err != nil || port == 0 {
			return nil, fmt.Errorf("--port %q is no port", word)
		}
		nodes = append(nodes, &urbd.Node{Port: int(port), OnFault: onFault})
	}
	return nodes, nil
}

// isFile says whether an input is a file, which begins with the same lines if it is given again.
func isFile(input *os.File) bool {
	info, err := input.Stat()
	return err == nil && info.Mode().IsRegular()
}

func publish(ctx context.Context, node *urbd.Node, client uint16, path string, isSame bool) error {
	publisher, err := urbd.OpenPublisher(node, client, path)
	if err != nil {
		return err
	}
	told := func(seq uint32) { fmt.Println("accepted", seq) }
	if err := urbd.PublishLines(ctx, publisher, os.Stdin, isSame, told); err != nil {
		publisher.Abandon()
		return err
	}
	return publisher.Close(ctx)
}

func follow(ctx context.Context, nodes []*urbd.Node, path string) error {
	var position urbd.Position
	if _, err := urbd.Kept(path, &position); err != nil {
		return err
	}
	return urbd.NewFollower(position, nodes...).Follow(ctx, func(entries []urbd.Entry, position urbd.Position) error {
		var lines strings.Builder
		for _, it := range entries {
			payload := hex.EncodeToString(it.Payload)
			if payload == "" {
				payload = "-"
			}
			fmt.Fprintf(&lines, "%d.%d %d %d %s\n", it.Sender, it.Seq, it.Client, it.Number, payload)
		}
		// what wasn't printed isn't noted as read
		if _, err := os.Stdout.WriteString(lines.String()); err != nil {
			return err
		}
		return urbd.Keep(path, position)
	})
}
