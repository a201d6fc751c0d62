package soyc

/*
#include "soyc.h"
*/
import "C"

import (
	"fmt"
	"io"
	"runtime"
	"sync"
)

// What a call may answer, besides success.
const (
	Memory    = uint32(C.SOYC_MEMORY)
	Usage     = uint32(C.SOYC_USAGE)
	Read      = uint32(C.SOYC_READ)
	Refused   = uint32(C.SOYC_REFUSED)
	TooDeep   = uint32(C.SOYC_TOO_DEEP)
	Malformed = uint32(C.SOYC_MALFORMED)
	Closed    = uint32(C.SOYC_EMPTY)
)

var meanings = map[uint32]string{
	Memory:    "out of memory",
	Usage:     "no files, or more than 64",
	Malformed: "a name isn't UTF-8",
	Closed:    "closed before",
}

// Error is why a call wasn't done. All but Status is of Refused and TooDeep alone.
type Error struct {
	Status uint32
	// Code and Word say which fault it is, as 4 and "Syntax", and Line is the line for people.
	Code       uint32
	Word, Line string
	// File is the name of the template file, Row and Column the position in it, counted from 1; of other faults they
	// are empty and 0.
	File        string
	Row, Column uint64
	// InBundle and InData say that the fault is of the translations or of the data. Pointer, a JSON pointer (RFC 6901),
	// leads to it, and is empty for the whole of them; HasPointer is false where they are too large, which has none.
	InBundle, InData, HasPointer bool
	Pointer                      string
	// Detail is what the fault is about: a name, a type or the place of a value, or two of them with a line feed between.
	Detail string
}

func (e *Error) Error() string {
	if e.Line != "" {
		return e.Line
	}
	if said := meanings[e.Status]; said != "" {
		return said
	}
	return fmt.Sprintf("status %d", e.Status)
}

// Templates are compiled template files under the translations of one language, of which pages are opened. They and
// their pages may be used by several goroutines: one call at a time is made, by a lock. Goroutines that shall make
// pages at the same time have one each.
type Templates struct {
	lock  sync.Mutex
	held  C.struct_soyc_templates
	names []string
	fault C.struct_soyc_fault
	given C.size_t
	line  []byte
}

// Compile compiles template files, of which 1 to 64 are, under a bundle of translations, or nil for the language of
// the templates. The answer for the first fault of either is an *Error.
func Compile(files []File, bundle []byte) (*Templates, error) {
	var call parts
	t := &Templates{line: make([]byte, 1024)}
	for _, file := range files {
		t.names = append(t.names, file.Name)
	}
	sources, bundles := call.putFiles(files), call.putFiles(nil)
	if bundle != nil {
		bundles = call.putFiles([]File{{"bundle.json", bundle}})
	}
	err := t.done(func(line *C.uint8_t, room C.size_t) C.uint32_t {
		return C.soyc_compile(pointer(call.bytes), C.size_t(len(call.bytes)), &sources[:1][0], C.size_t(len(sources)),
			&bundles[:1][0], C.size_t(len(bundles)), &t.held, line, room, &t.fault)
	})
	if err != nil {
		return nil, err
	}
	runtime.SetFinalizer(t, (*Templates).Close)
	return t, nil
}

// done makes a call, with a room that is long enough for its line, and says what its status means.
func (t *Templates) done(call func(line *C.uint8_t, room C.size_t) C.uint32_t) error {
	for {
		status := uint32(call(pointer(t.line), C.size_t(len(t.line))))
		switch {
		case status == 0:
			return nil
		case int(t.fault.err) <= len(t.line):
			return t.failure(status)
		}
		t.line = make([]byte, t.fault.err)
	}
}

// said is a part of the text of the last fault.
func (t *Templates) said(part C.struct_soyc_part) string {
	return string(t.line[part.begin:part.end])
}

// failure is what a status means, with the fault of the call, if it has one.
func (t *Templates) failure(status uint32) *Error {
	e := &Error{Status: status}
	if status != Refused && status != TooDeep {
		return e
	}
	e.Code, e.Word, e.Line = uint32(t.fault.code), t.said(t.fault.word), t.said(t.fault.message)
	e.Row, e.Column = uint64(t.fault.line), uint64(t.fault.column)
	e.HasPointer, e.Pointer = t.fault.pointer.end > 0, t.said(t.fault.pointer)
	e.Detail = t.said(t.fault.detail)
	switch t.fault.subject {
	case C.SOYC_IN_FILE:
		e.File = t.names[t.fault.file]
	case C.SOYC_IN_BUNDLE:
		e.InBundle = true
	case C.SOYC_IN_DATA:
		e.InData = true
	}
	return e
}

// Close gives back the memory once no page is open. Pages that are open go on.
func (t *Templates) Close() error {
	t.lock.Lock()
	defer t.lock.Unlock()
	runtime.SetFinalizer(t, nil)
	C.soyc_free(&t.held)
	return nil
}

// Page is an open page: an io.ReadCloser of its bytes, which are made as they are read.
type Page struct {
	templates *Templates
	held      C.struct_soyc_page
}

// Open opens a page: the template with this full name, as "shop.list.main", with data as JSON. An *Error that is
// Refused says that there is no such template, or that the data don't fit it; so from a page that is open only TooDeep
// and Memory come.
func (t *Templates) Open(name string, data []byte) (*Page, error) {
	t.lock.Lock()
	defer t.lock.Unlock()
	p, called := &Page{templates: t}, []byte(name)
	err := t.done(func(line *C.uint8_t, room C.size_t) C.uint32_t {
		return C.soyc_open(&t.held, pointer(called), C.size_t(len(called)), pointer(data), C.size_t(len(data)), &p.held,
			line, room, &t.fault)
	})
	if err != nil {
		return nil, err
	}
	runtime.SetFinalizer(p, (*Page).Close)
	return p, nil
}

// Read gives the next bytes of the page, and io.EOF at its end.
func (p *Page) Read(room []byte) (int, error) {
	if len(room) == 0 {
		return 0, nil
	}
	t := p.templates
	t.lock.Lock()
	defer t.lock.Unlock()
	err := t.done(func(line *C.uint8_t, lineRoom C.size_t) C.uint32_t {
		return C.soyc_pull(&p.held, pointer(room), C.size_t(len(room)), &t.given, line, lineRoom, &t.fault)
	})
	if err == nil && t.given == 0 {
		err = io.EOF
	}
	return int(t.given), err
}

// Close gives up the page, at its end or before.
func (p *Page) Close() error {
	p.templates.lock.Lock()
	defer p.templates.lock.Unlock()
	runtime.SetFinalizer(p, nil)
	C.soyc_close(&p.held)
	return nil
}
