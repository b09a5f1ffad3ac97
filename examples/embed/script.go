// Answers the lines of standard input, as `pcef script PROFILE.toml` does, over the library for C; then judges a vector
// of packets. The reports of each line, which it then forgets, and the verdicts go to standard error.
//
//	script PROFILE.toml < LINES.jsonl
package main

// #include <stdlib.h>
// #include "pcef.h"
import "C"

import (
	"bufio"
	"errors"
	"fmt"
	"io"
	"os"
	"runtime"
	"unsafe"
)

// Session is a session behind a handle. The handle lies in memory of C's, which Go's collector neither moves nor frees.
// It is in one call at a time, on one thread: its goroutine calls runtime.LockOSThread first.
type Session struct {
	at *C.pcef_session
}

// Packet is the first octets of a packet, from its IP header on, how many octets it has in all, and its direction.
type Packet struct {
	Octets []byte
	Whole  int
	Up     bool
}

// Verdict is what the newest generation of rules decides of a packet; include/pcef.h says what the numbers mean.
type Verdict struct {
	Generation                   uint32
	Status, Bearer, Place, Slots uint8
}

var nothing C.uint8_t

// octets is where a slice lies, and never null.
func octets(slice []byte) *C.uint8_t {
	if len(slice) == 0 {
		return &nothing
	}
	return (*C.uint8_t)(unsafe.Pointer(&slice[0]))
}

// Open opens a session of a profile. Close it.
func Open(profile []byte) (*Session, error) {
	at := (*C.pcef_session)(C.aligned_alloc(16, (C.pcef_size()+15)/16*16))
	if at == nil {
		return nil, errors.New("no memory for a handle")
	}
	C.pcef_room(at)
	if fault := C.pcef_open(at, octets(profile), C.size_t(len(profile))); fault != C.PCEF_OK {
		C.free(unsafe.Pointer(at))
		return nil, fmt.Errorf("the profile isn't opened: %d", fault)
	}
	return &Session{at}, nil
}

// Close closes the session and frees its handle.
func (s *Session) Close() {
	C.pcef_close(s.at)
	C.free(unsafe.Pointer(s.at))
	s.at = nil
}

// Line does what a line asks for. The answer stands in `room`, and is empty where none is due.
func (s *Session) Line(line, room []byte) ([]byte, error) {
	needed := C.pcef_line(s.at, octets(line), C.size_t(len(line)), octets(room), C.size_t(len(room)))
	if needed > C.size_t(len(room)) {
		return nil, errors.New("no memory, or more than the buffer holds")
	}
	return room[:needed], nil
}

// Reports gives the reports from a number on, as a JSON array that stands in `room`. Reports that were
// forgotten can't be written again.
func (s *Session) Reports(first uint64, room []byte) ([]byte, error) {
	needed := C.pcef_reports(s.at, C.uint64_t(first), octets(room), C.size_t(len(room)))
	if needed > C.size_t(len(room)) {
		return nil, errors.New("no such reports, no memory, or more than the buffer holds")
	}
	return room[:needed], nil
}

// Forget forgets the reports so far, once they were handed on, and gives the number of the next one.
func (s *Session) Forget() uint64 {
	return uint64(C.pcef_forget(s.at))
}

// Judge judges packets in one call. C may not be handed pointers to pointers of Go's, so the packets and their octets are
// copied into memory of C's; a gateway whose packets lie there already copies nothing.
func (s *Session) Judge(packets []Packet) []Verdict {
	count, size := len(packets), 1
	for _, packet := range packets {
		size += len(packet.Octets)
	}
	room := C.calloc(C.size_t(size), 1)
	defer C.free(room)
	rows := C.calloc(C.size_t(count)+1, C.sizeof_pcef_packet)
	defer C.free(rows)
	left := unsafe.Slice((*byte)(room), size)
	vector := unsafe.Slice((*C.pcef_packet)(rows), count)
	for i, packet := range packets {
		vector[i].octets = octets(left)
		vector[i].length = C.size_t(copy(left, packet.Octets))
		vector[i].whole = C.size_t(packet.Whole)
		if packet.Up {
			vector[i].up = 1
		}
		left = left[len(packet.Octets):]
	}
	written := make([]C.pcef_verdict, count+1)
	judged := C.pcef_judge(s.at, (*C.pcef_packet)(rows), C.size_t(count), &written[0], C.size_t(count))
	verdicts := make([]Verdict, judged)
	for i := range verdicts {
		verdicts[i] = Verdict{uint32(written[i].generation), uint8(written[i].status), uint8(written[i].bearer),
			uint8(written[i].place), uint8(written[i].slots)}
	}
	return verdicts
}

// handOn writes the reports from a number on, forgets them, and gives the number of the next one.
func handOn(session *Session, next uint64, room []byte) (uint64, error) {
	reports, err := session.Reports(next, room)
	if err != nil {
		return next, err
	}
	// A gateway hands them to the PCRF, and only then forgets them.
	if _, err := os.Stderr.Write(reports); err != nil {
		return next, err
	}
	return session.Forget(), nil
}

// play answers the lines of a reader.
func play(session *Session, lines *bufio.Reader, answers *bufio.Writer) error {
	room := make([]byte, 1<<20)
	next := uint64(0)
	for {
		line, end := lines.ReadBytes('\n')
		if n := len(line); n > 0 && line[n-1] == '\n' {
			line = line[:n-1]
		}
		answer, err := session.Line(line, room)
		if err != nil {
			return err
		}
		if len(answer) > 0 {
			answers.Write(answer)
			answers.WriteByte('\n')
		}
		if next, err = handOn(session, next, room); err != nil {
			return err
		}
		if end == io.EOF {
			return answers.Flush()
		}
		if end != nil {
			return end
		}
	}
}

// run opens a session, plays the lines, and judges a vector.
func run() error {
	if len(os.Args) != 2 {
		return errors.New("usage: script PROFILE.toml < LINES.jsonl")
	}
	profile, err := os.ReadFile(os.Args[1])
	if err != nil {
		return err
	}
	session, err := Open(profile)
	if err != nil {
		return err
	}
	defer session.Close()
	if err := play(session, bufio.NewReader(os.Stdin), bufio.NewWriter(os.Stdout)); err != nil {
		return err
	}
	// UDP from 198.51.100.7 port 53 to 10.0.0.2 port 5000: whole; 24 octets of it; 20, which lack the ports; 27 as if
	// these were all; none.
	answer := []byte{0x45, 0, 0, 28, 0, 0, 0, 0, 64, 17, 0, 0, 198, 51, 100, 7, 10, 0, 0, 2, 0, 53, 0x13, 0x88, 0, 8, 0, 0}
	for _, verdict := range session.Judge([]Packet{{answer, 28, false}, {answer[:24], 28, false},
		{answer[:20], 28, false}, {answer[:27], 27, false}, {nil, 0, true}}) {
		fmt.Fprintf(os.Stderr, "\n%+v", verdict)
	}
	return nil
}

func main() {
	runtime.LockOSThread()
	if err := run(); err != nil {
		fmt.Fprintln(os.Stderr, err)
		os.Exit(1)
	}
}
