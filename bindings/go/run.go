// Package soyc makes pages from Closure Templates and data, by the library libsoyc.a, in this process. Compile compiles
// templates once, and Open opens pages of them, which are made as they are read; Run is the program itself.
//
// `make -C dist` in the repository makes the library, which takes a C compiler and a second or two. Nothing else is
// needed but cgo.
package soyc

/*
#cgo CFLAGS: -I${SRCDIR}/../../include
#cgo LDFLAGS: ${SRCDIR}/../../dist/out/libsoyc.a
#include "soyc.h"
*/
import "C"

import "unsafe"

// File is a file in memory: any name, and its content.
type File struct {
	Name    string
	Content []byte
}

// Result has the status of a command, and what the program writes to its output and to standard error.
type Result struct {
	Status   uint32
	Out, Err []byte
}

// The first room for what comes out, in bytes. A command whose answer is longer runs twice.
const firstRoom = 65536

// Run runs a command of the program, any of them, over files in memory. The words are those of the command line without
// the program's name. It may run at the same time in several goroutines.
func Run(words []string, files []File) Result {
	var call parts
	wordParts := make([]C.struct_soyc_part, 0, len(words)+1)
	for _, word := range words {
		wordParts = append(wordParts, call.put([]byte(word)))
	}
	fileParts := call.putFiles(files)
	var lengths C.struct_soyc_lengths
	out, err := make([]byte, firstRoom), make([]byte, firstRoom)
	for {
		status := C.soyc_run(pointer(call.bytes), C.size_t(len(call.bytes)),
			&wordParts[:1][0], C.size_t(len(wordParts)), &fileParts[:1][0], C.size_t(len(fileParts)),
			pointer(out), C.size_t(len(out)), pointer(err), C.size_t(len(err)), &lengths)
		if int(lengths.out) <= len(out) && int(lengths.err) <= len(err) {
			return Result{uint32(status), out[:lengths.out], err[:lengths.err]}
		}
		out, err = longer(out, int(lengths.out)), longer(err, int(lengths.err))
	}
}

// parts has the bytes of a call, which its words, names and contents are parts of.
type parts struct {
	bytes []byte
}

func (call *parts) put(text []byte) C.struct_soyc_part {
	begin := len(call.bytes)
	call.bytes = append(call.bytes, text...)
	return C.struct_soyc_part{begin: C.size_t(begin), end: C.size_t(len(call.bytes))}
}

// putFiles gives a slice with room for one more, as no pointer may be nil.
func (call *parts) putFiles(files []File) []C.struct_soyc_file {
	given := make([]C.struct_soyc_file, 0, len(files)+1)
	for _, file := range files {
		given = append(given, C.struct_soyc_file{name: call.put([]byte(file.Name)), content: call.put(file.Content)})
	}
	return given
}

// pointer leads to the bytes, or to some other byte where there are none.
func pointer(bytes []byte) *C.uint8_t {
	if cap(bytes) == 0 {
		return (*C.uint8_t)(unsafe.Pointer(&none[0]))
	}
	return (*C.uint8_t)(unsafe.Pointer(&bytes[:1][0]))
}

var none [1]byte

func longer(room []byte, length int) []byte {
	if length <= len(room) {
		return room
	}
	return make([]byte, length)
}
