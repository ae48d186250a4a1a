// A Go program on plain memory whose stores the kernel tracks. The runtime of Go owns SIGSEGV: goroutines store, a nil
// pointer is an error that is recovered from, and files are read into the memory.
//
// usage: main VOLUME     of a file `a` with 512 pages
package main

/*
#include <famsync.h>

static int open_tracked(const char *path, famsync **handle)
{
    struct famsync_options options = {.size = sizeof options, .tracking = FAMSYNC_TRACK_KERNEL};
    return famsync_open(path, &options, handle);
}
*/
import "C"

import (
	"fmt"
	"io"
	"os"
	"runtime"
	"sync"
	"unsafe"
)

const (
	workers = 8
	rounds  = 200
	page    = 4096
)

func want(holds bool, what ...any) {
	if !holds {
		fmt.Println(what...)
		os.Exit(1)
	}
}

func must(code C.int) {
	want(code == C.FAMSYNC_OK, C.GoString(C.famsync_strerror(code)))
}

type session struct {
	handle *C.famsync
	memory *C.famsync_memory
	bytes  []byte
}

func open(path string) (s session) {
	must(C.open_tracked(C.CString(path), &s.handle))
	must(C.famsync_memory_open(s.handle, C.CString("a"), &s.memory))
	s.bytes = unsafe.Slice((*byte)(C.famsync_memory_at(s.memory)), int(C.famsync_memory_length(s.memory)))
	return s
}

func (s session) end() {
	must(C.famsync_memory_close(s.memory))
	must(C.famsync_close(s.handle))
}

// The places to which a goroutine stores.
func (s session) places(worker int) (places []int) {
	part := len(s.bytes) / workers
	for i := worker * part; i < (worker+1)*part; i += page {
		places = append(places, i+worker)
	}
	return places
}

// All goroutines end before the commit.
func (s session) store(round int) {
	var group sync.WaitGroup
	for worker := 0; worker < workers; worker++ {
		group.Add(1)
		go func(worker int) {
			defer group.Done()
			for _, place := range s.places(worker) {
				s.bytes[place] = byte(round)
			}
		}(worker)
	}
	group.Wait()
}

func isNilAnError() (caught bool) {
	defer func() { caught = recover() != nil }()
	var nowhere *int
	*nowhere = 1
	return false
}

func (s session) readInto() {
	zeros, err := os.Open("/dev/zero")
	want(err == nil, err)
	_, err = io.ReadFull(zeros, s.bytes[:5000])
	want(err == nil, "a file is read into the memory:", err)
	want(zeros.Close() == nil)
}

func main() {
	s := open(os.Args[1])
	for round := 1; round <= rounds; round++ {
		s.store(round)
		want(isNilAnError(), "a nil pointer isn't an error")
		if round%20 == 0 {
			runtime.GC()
		}
		must(C.famsync_msync(s.handle, nil))
	}
	s.readInto()
	must(C.famsync_rollback(s.handle))
	s.end()
	s = open(os.Args[1])
	for worker := 0; worker < workers; worker++ {
		for _, place := range s.places(worker) {
			want(s.bytes[place] == rounds, "not committed:", place, s.bytes[place])
		}
	}
	s.end()
	fmt.Println("clients/c: with_go: as it should be")
}
