package urbd

import (
	"encoding/json"
	"fmt"
	"strconv"
)

// address is where a node takes its clients: at a port of this machine, or at the path of a Unix
// socket. In JSON it is a number or a string, as the Python client has it.
type address struct {
	port   int
	socket string
}

// network is the network and the address, as package net has them.
func (a address) network() (string, string) {
	if a.socket != "" {
		return "unix", a.socket
	}
	return "tcp", fmt.Sprintf("127.0.0.1:%d", a.port)
}

// String is the address in words: "port 7411", or "socket" and its path.
func (a address) String() string {
	if a.socket != "" {
		return "socket " + a.socket
	}
	return fmt.Sprintf("port %d", a.port)
}

// key is what a Position has as the node's name: the digits of the port, or the path.
func (a address) key() string {
	if a.socket != "" {
		return a.socket
	}
	return strconv.Itoa(a.port)
}

// MarshalJSON writes the number of the port, or the path.
func (a address) MarshalJSON() ([]byte, error) {
	if a.socket != "" {
		return json.Marshal(a.socket)
	}
	return json.Marshal(a.port)
}

// UnmarshalJSON reads either.
func (a *address) UnmarshalJSON(text []byte) error {
	*a = address{}
	if len(text) > 0 && text[0] == '"' {
		return json.Unmarshal(text, &a.socket)
	}
	return json.Unmarshal(text, &a.port)
}
