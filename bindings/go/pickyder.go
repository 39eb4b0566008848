// Package pickyder checks, lists and writes DER by a library that is proved.
//
// Check returns nil exactly if bytes are one message of a type, in DER throughout. Elements goes over elements, and a Writer writes them.
package pickyder

/*
#cgo pkg-config: picky_der
#include "picky_der.h"
*/
import "C"

import (
	"errors"
	"fmt"
	"unsafe"
)

// A Message is a type of messages.
type Message uint32

// String returns the word by which `der read` knows the type.
func (m Message) String() string { return words[m] }

// ErrNoMemory says that the library got no memory. Nothing is known of the bytes then.
var ErrNoMemory = errors.New("pickyder: no memory")

// ErrNoTable says that the type has no table, and so its messages have no JSON.
var ErrNoTable = errors.New("pickyder: the type has no table")

// A Code says why bytes are refused. Those above 100 are rules of X.690.
type Code uint32

// The codes of errors.
const (
	Truncated   Code = C.PICKY_DER_TRUNCATED
	Invalid     Code = C.PICKY_DER_INVALID
	Unsupported Code = C.PICKY_DER_UNSUPPORTED
	UnknownType Code = C.PICKY_DER_UNKNOWN_TYPE
)

// String returns what is wrong, in words.
func (c Code) String() string { return C.GoString(C.picky_der_text(C.picky_der_code(c))) }

// Clause returns the clause of X.690 that is broken, or an empty text.
func (c Code) Clause() string { return C.GoString(C.picky_der_clause(C.picky_der_code(c))) }

// An Error says why bytes are refused, and the index of the byte or element where this was found. Check adds the path of the element, as
// tbsCertificate.extensions[3].extnID, or by numbers, as 0.2.1. It is empty for the outermost one.
type Error struct {
	Code     Code
	Position int
	Path     string
}

func (e *Error) Error() string {
	place := fmt.Sprint(e.Position)
	if e.Path != "" {
		place += ", " + e.Path
	}
	if clause := e.Code.Clause(); clause != "" {
		return fmt.Sprintf("pickyder: at %s: %v (X.690, %s)", place, e.Code, clause)
	}
	return fmt.Sprintf("pickyder: at %s: %v", place, e.Code)
}

func errorOf(code C.picky_der_code, position int) error {
	switch code {
	case C.PICKY_DER_OK:
		return nil
	case C.PICKY_DER_NO_MEMORY:
		return ErrNoMemory
	case C.PICKY_DER_NO_TABLE:
		return ErrNoTable
	}
	return &Error{Code: Code(code), Position: position}
}

// written returns what a call returns and writes with this room, and if that is too small, with as much as the first call counted.
func written(room int, call func(out []byte, used *C.size_t) C.picky_der_code) (C.picky_der_code, []byte) {
	var used C.size_t
	out := make([]byte, room)
	code := call(out, &used)
	if code == C.PICKY_DER_NO_ROOM {
		out = make([]byte, used)
		used = 0
		code = call(out, &used)
	}
	return code, out[:used]
}

// pathOf is the path of the element for which a check refuses the bytes.
func pathOf(message Message, bytes []byte) string {
	code, path := written(128, func(out []byte, used *C.size_t) C.picky_der_code {
		return C.picky_der_path(C.uint32_t(message), pointer(bytes), C.size_t(len(bytes)), pointer(out), C.size_t(len(out)), used)
	})
	if code != C.PICKY_DER_OK {
		return ""
	}
	return string(path)
}

// The library writes to nothing else that it is given, so parts of a writer's buffer are copied first.
func shares(buffer, part []byte) bool {
	if len(buffer) == 0 || len(part) == 0 {
		return false
	}
	start, at := uintptr(unsafe.Pointer(&buffer[0])), uintptr(unsafe.Pointer(&part[0]))
	return at < start+uintptr(len(buffer)) && start < at+uintptr(len(part))
}

var none [1]byte

// pointer is never nil, not even for no bytes.
func pointer(bytes []byte) *C.uint8_t {
	if len(bytes) == 0 {
		return (*C.uint8_t)(unsafe.Pointer(&none[0]))
	}
	return (*C.uint8_t)(unsafe.Pointer(&bytes[0]))
}

// Check returns nil exactly if the bytes are one message of the type and nothing else, and each element in them is in DER.
//
// It returns ErrNoMemory if memory ran out, and else an *Error.
func Check(message Message, bytes []byte) error {
	var position C.size_t
	code := C.picky_der_check(C.uint32_t(message), pointer(bytes), C.size_t(len(bytes)), &position)
	return refusalOf(message, bytes, code, position)
}

// refusalOf is the error of a check, with the path.
func refusalOf(message Message, bytes []byte, code C.picky_der_code, position C.size_t) error {
	err := errorOf(code, int(position))
	if refusal, ok := err.(*Error); ok {
		refusal.Path = pathOf(message, bytes)
	}
	return err
}

// ToJSON returns the JSON of a message of the type (X.697), on one line. It is made by a table of the type, which all types have but
// Krb.
//
// It returns what Check returns if the bytes aren't such a message, ErrNoTable if the type has no table, and an *Error with the code
// Unsupported if a number in the message has too many digits.
func ToJSON(message Message, bytes []byte) (string, error) {
	var position C.size_t
	code, json := written(256+4*len(bytes), func(out []byte, used *C.size_t) C.picky_der_code {
		return C.picky_der_to_json(C.uint32_t(message), pointer(bytes), C.size_t(len(bytes)), &position, pointer(out), C.size_t(len(out)), used)
	})
	if err := refusalOf(message, bytes, code, position); err != nil {
		return "", err
	}
	return string(json), nil
}

// A JSONError says why a text isn't JSON of a message of a type, and where.
type JSONError struct {
	Reason string
}

func (e *JSONError) Error() string { return "pickyder: " + e.Reason }

// FromJSON returns the DER of the message of the type with this JSON, as ToJSON returns it. Check accepts it.
//
// It returns a *JSONError if the text isn't JSON of a message of the type, ErrNoTable if the type has no table, and ErrNoMemory if memory
// ran out.
func FromJSON(message Message, json string) ([]byte, error) {
	text := []byte(json)
	code, der := written(256+len(text), func(out []byte, used *C.size_t) C.picky_der_code {
		return C.picky_der_from_json(C.uint32_t(message), pointer(text), C.size_t(len(text)), pointer(out), C.size_t(len(out)), used)
	})
	if code == C.PICKY_DER_NO_VALUE {
		return nil, &JSONError{string(der)}
	}
	if err := errorOf(code, 0); err != nil {
		return nil, err
	}
	return der, nil
}

// A BERError says why bytes aren't BER of a message of a type, and where.
type BERError struct {
	Reason string
}

func (e *BERError) Error() string { return "pickyder: " + e.Reason }

// FromBER returns the DER of the message of the type that these bytes are in BER (X.690, 8). Check accepts it. It is made by a table of the
// type, as ToJSON has one, and the content of Cms by its own type, if that has a table.
//
// It returns a *BERError if the bytes aren't BER of a message of the type, ErrNoTable if the type has no table, and ErrNoMemory if memory
// ran out.
func FromBER(message Message, bytes []byte) ([]byte, error) {
	code, der := written(256+len(bytes), func(out []byte, used *C.size_t) C.picky_der_code {
		return C.picky_der_from_ber(C.uint32_t(message), pointer(bytes), C.size_t(len(bytes)), pointer(out), C.size_t(len(out)), used)
	})
	if code == C.PICKY_DER_NO_VALUE {
		return nil, &BERError{string(der)}
	}
	if err := errorOf(code, 0); err != nil {
		return nil, err
	}
	return der, nil
}

// An Element is an element of bytes, by its place in them.
type Element struct {
	Offset      int    // the index of its first byte
	Depth       int    // how many elements are around it
	Tag         byte   // its first byte
	Class       int    // 0 universal, 1 application, 2 context-specific, 3 private
	Number      int    // the number of its tag
	Constructed bool   // whether its content is made of elements
	Content     []byte // its content, a part of the bytes
	Encoding    []byte // the whole element
}

func elementOf(bytes []byte, it *C.picky_der_element) Element {
	start := int(it.offset)
	content := start + int(it.header_len)
	end := content + int(it.content_len)
	return Element{start, int(it.depth), byte(it.tag), int(it.tag_class), int(it.tag_number), bool(it.is_constructed),
		bytes[content:end:end], bytes[start:end:end]}
}

// Front returns the element at the front of the bytes. Others may follow it, and the elements in it aren't looked at.
func Front(bytes []byte) (Element, error) {
	var found C.picky_der_element
	if err := errorOf(C.picky_der_front(pointer(bytes), C.size_t(len(bytes)), &found), 0); err != nil {
		return Element{}, err
	}
	return elementOf(bytes, &found), nil
}

// Elements returns the elements of the bytes, at any depth and each before those in it.
//
// If one breaks a rule, they are those before it, and the error says which rule and where.
func Elements(bytes []byte) ([]Element, error) {
	var count, position C.size_t
	found := make([]C.picky_der_element, 1+len(bytes)/8)
	code := C.picky_der_elements(pointer(bytes), C.size_t(len(bytes)), &found[0], C.size_t(len(found)), &count, &position)
	if int(count) > len(found) {
		found = make([]C.picky_der_element, count)
		code = C.picky_der_elements(pointer(bytes), C.size_t(len(bytes)), &found[0], C.size_t(len(found)), &count, &position)
	}
	elements := make([]Element, count)
	for i := range elements {
		elements[i] = elementOf(bytes, &found[i])
	}
	return elements, errorOf(code, int(position))
}

// A Writer writes elements one after another. The zero value has written nothing. It isn't for several goroutines at once.
type Writer struct {
	bytes []byte
}

// Bytes returns what was written.
func (w *Writer) Bytes() []byte { return w.bytes }

// Put appends an element with this tag and content, which may be a part of what was written.
func (w *Writer) Put(tag byte, content []byte) error {
	if shares(w.bytes[:cap(w.bytes)], content) {
		content = append([]byte(nil), content...)
	}
	return w.grow(func(out []byte, used *C.size_t) C.picky_der_code {
		return C.picky_der_put(pointer(out), C.size_t(len(out)), used, C.uint8_t(tag), pointer(content), C.size_t(len(content)))
	})
}

// Within appends an element with this tag, whose content is what the function writes. The members of a SET, tag 0x31, have to be in order.
func (w *Writer) Within(tag byte, write func() error) error {
	start := len(w.bytes)
	if err := write(); err != nil {
		return err
	}
	return w.wrap(tag, start)
}

// SetOf appends a SET OF, whose members are what the function writes, in the order of their encodings (X.690, 11.6).
func (w *Writer) SetOf(write func() error) error {
	start := len(w.bytes)
	if err := write(); err != nil {
		return err
	}
	used := C.size_t(len(w.bytes))
	if err := errorOf(C.picky_der_sort(pointer(w.bytes), used, used, C.size_t(start)), start); err != nil {
		return err
	}
	return w.wrap(0x31, start)
}

func (w *Writer) wrap(tag byte, start int) error {
	return w.grow(func(out []byte, used *C.size_t) C.picky_der_code {
		return C.picky_der_wrap(pointer(out), C.size_t(len(out)), used, C.size_t(start), C.uint8_t(tag))
	})
}

// grow calls with the room that there is, and if that is too small, with as much as the first call counted.
func (w *Writer) grow(call func(out []byte, used *C.size_t) C.picky_der_code) error {
	before := len(w.bytes)
	used := C.size_t(before)
	code := call(w.bytes[:cap(w.bytes)], &used)
	if code == C.PICKY_DER_NO_ROOM {
		larger := make([]byte, before, 2*int(used))
		copy(larger, w.bytes)
		w.bytes = larger
		used = C.size_t(before)
		code = call(w.bytes[:cap(w.bytes)], &used)
	}
	w.bytes = w.bytes[:used]
	return errorOf(code, before)
}
