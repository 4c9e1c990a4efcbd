// Package urbd is a client of urbd, logged uniform FIFO broadcast on one machine.
//
// A Publisher has each message accepted once, a Follower reads each message once, a Node asks one
// thing. PublishLines publishes the lines of an input, and continues after a stop. Every call takes
// a context and has a time limit of its own: a node serves a limited number of connections.
// The files and positions are those of the Python client.
package urbd
