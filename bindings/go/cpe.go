// Package cpe has names of CPE 2.3 in other forms, how two names relate, and sessions over lines: the library for C, called by cgo.
//
// A text may have any bytes. The library and its header are those that the C compiler finds, or that CGO_LDFLAGS and CGO_CFLAGS name.
package cpe

/*
#cgo LDFLAGS: -lcpe
#include <stdlib.h>
#include <cpe.h>

typedef int (*form)(const char *, size_t, char *, size_t, size_t *);

static int other_form(form form, const char *text, size_t length, char *out, size_t size, size_t *number) {
    return form(text, length, out, size, number);
}

// A number of this thread that no other thread ever has.
static unsigned long this_thread(void) {
    static unsigned long last;
    static __thread unsigned long mine;
    if (!mine) mine = __atomic_add_fetch(&last, 1, __ATOMIC_RELAXED);
    return mine;
}
*/
import "C"

import (
	"errors"
	"fmt"
	"runtime"
	"strings"
	"unsafe"
)

// Why a call fails, beside Refused.
var (
	ErrMemory    = errors.New("cpe: memory ran out")
	ErrNoCommand = errors.New("cpe: the words name no command that answers lines")
	ErrNotALine  = errors.New("cpe: the line has a newline in it")
	ErrOver      = errors.New("cpe: the session is over")
	ErrMisuse    = errors.New("cpe: the call is misused")
	ErrElsewhere = errors.New("cpe: the session was opened in another goroutine")
)

var faults = map[C.int]error{C.CPE_MEMORY: ErrMemory, C.CPE_NO_COMMAND: ErrNoCommand, C.CPE_NOT_A_LINE: ErrNotALine, C.CPE_OVER: ErrOver}

// Refused is the error if no name has a text. Place is where a formatted string or a URI fails, in bytes from 0; Target is
// true for the second of two texts.
type Refused struct {
	Place  int
	Target bool
}

func (refused *Refused) Error() string {
	which := ""
	if refused.Target {
		which = "second "
	}
	return fmt.Sprintf("cpe: no name has the %stext: it goes wrong at byte %d", which, refused.Place)
}

// judge is the error that a code means; nil if the call succeeded.
func judge(code C.int, number C.size_t) error {
	if code == C.CPE_DONE {
		return nil
	}
	if code == C.CPE_REFUSED || code == C.CPE_TARGET_REFUSED {
		return &Refused{int(number), code == C.CPE_TARGET_REFUSED}
	}
	if err := faults[code]; err != nil {
		return err
	}
	return ErrMisuse
}

// bytesOf is where the bytes of a text lie, for C to read, and their number.
func bytesOf(text string) (*C.char, C.size_t) {
	return *(**C.char)(unsafe.Pointer(&text)), C.size_t(len(text))
}

// roomOf is where C may write, and for how many bytes.
func roomOf(room []byte) (*C.char, C.size_t) {
	return (*C.char)(unsafe.Pointer(&room[0])), C.size_t(len(room))
}

// otherForm makes room for the text, and again if that is too small.
func otherForm(form C.form, text string) (string, error) {
	from, length := bytesOf(text)
	var number C.size_t
	room := make([]byte, 512)
	out, size := roomOf(room)
	code := C.other_form(form, from, length, out, size, &number)
	if code == C.CPE_SHORT {
		room = make([]byte, number)
		out, size = roomOf(room)
		code = C.other_form(form, from, length, out, size, &number)
	}
	if err := judge(code, number); err != nil {
		return "", err
	}
	return string(room[:number]), nil
}

// Unbind is the text of the well-formed name that has this formatted string or URI; or the error is a *Refused.
func Unbind(text string) (string, error) { return otherForm(C.form(C.cpe_unbind), text) }

// BindFS is the formatted string of the well-formed name that has this text; or the error is a *Refused, at 0.
func BindFS(text string) (string, error) { return otherForm(C.form(C.cpe_bind_fs), text) }

// BindURI is the canonical URI of the well-formed name that has this text; or the error is a *Refused, at 0.
func BindURI(text string) (string, error) { return otherForm(C.form(C.cpe_bind_uri), text) }

// Relation is how a source relates to a target (NIST IR 7696).
type Relation uint8

// The relations, of names and of attributes.
const (
	Disjoint Relation = iota
	Equal
	Subset
	Superset
	Undefined
)

var relationWords = [...]string{"DISJOINT", "EQUAL", "SUBSET", "SUPERSET", "UNDEFINED"}

func (relation Relation) String() string { return relationWords[relation] }

// Relations are the relation of two names, Whole, and those of their attributes.
type Relations struct {
	Whole, Part, Vendor, Product, Version, Update, Edition, Language, SwEdition, TargetSw, TargetHw, Other Relation
}

// Relate returns how two names relate, formatted strings or URIs; or the error is a *Refused.
func Relate(source, target string) (Relations, error) {
	from, fromLength := bytesOf(source)
	to, toLength := bytesOf(target)
	var found Relations
	var number C.size_t
	// (both have twelve bytes, in one order)
	code := C.cpe_relate(from, fromLength, to, toLength, (*C.struct_cpe_relations)(unsafe.Pointer(&found)), &number)
	return found, judge(code, number)
}

// Covers returns whether the first name covers the second; or the error is a *Refused.
func Covers(source, target string) (bool, error) {
	from, fromLength := bytesOf(source)
	to, toLength := bytesOf(target)
	var covers C.int
	var number C.size_t
	code := C.cpe_covers(from, fromLength, to, toLength, &covers, &number)
	return covers == 1, judge(code, number)
}

// Session is a session of a command, whose lines are given one by one. It answers for each line what the program would write for
// it, and End returns the last ones; one after the other they are the program's output.
//
// It belongs to the goroutine that opened it, which has a thread for itself until it closes the session
// (runtime.LockOSThread). In another goroutine each call answers ErrElsewhere.
type Session struct {
	session *C.cpe_session
	thread  C.ulong
	room    []byte
	number  C.size_t
	status  C.int
}

// Open opens a session of the command with these words, as Open("watch") or Open("bind", "fs"). It has to be closed.
func Open(words ...string) (*Session, error) {
	if len(words) == 0 || len(words) > 2 {
		return nil, ErrNoCommand
	}
	var given [2]*C.char
	for at, word := range words {
		// (in C a word ends at a zero byte, and an empty second one is none)
		if word == "" || strings.IndexByte(word, 0) >= 0 {
			return nil, ErrNoCommand
		}
		given[at] = C.CString(word)
		defer C.free(unsafe.Pointer(given[at]))
	}
	runtime.LockOSThread()
	session := &Session{thread: C.this_thread(), room: make([]byte, 4096)}
	if err := judge(C.cpe_session_open(given[0], given[1], &session.session), 0); err != nil {
		runtime.UnlockOSThread()
		return nil, err
	}
	return session, nil
}

// usable is the error of each call of a session that was closed, or that is another goroutine's.
func (session *Session) usable() error {
	if session.session == nil {
		return ErrOver
	}
	if session.thread != C.this_thread() {
		return ErrElsewhere
	}
	return nil
}

// answer is the text of an answer. One that is too long for the room is asked for again.
func (session *Session) answer(code C.int) (string, error) {
	if code == C.CPE_SHORT {
		session.room = make([]byte, session.number)
		out, size := roomOf(session.room)
		code = C.cpe_session_answer(session.session, out, size, &session.number)
	}
	if err := judge(code, session.number); err != nil {
		return "", err
	}
	return string(session.room[:session.number]), nil
}

// Line is what the program would write for the next line, which is given without its newline.
func (session *Session) Line(line string) (string, error) {
	if err := session.usable(); err != nil {
		return "", err
	}
	text, length := bytesOf(line)
	out, size := roomOf(session.room)
	return session.answer(C.cpe_session_line(session.session, text, length, out, size, &session.number))
}

// End ends the session. It returns the lines at the end of the output, and the program's exit status: 0, or 1 if a line was
// refused.
func (session *Session) End() (string, int, error) {
	if err := session.usable(); err != nil {
		return "", 0, err
	}
	out, size := roomOf(session.room)
	answer, err := session.answer(C.cpe_session_end(session.session, out, size, &session.number, &session.status))
	return answer, int(session.status), err
}

// Close frees the session, and lets its goroutine share its thread again. A second call does nothing.
func (session *Session) Close() error {
	err := session.usable()
	if err == nil {
		C.cpe_session_close(session.session)
		session.session = nil
		runtime.UnlockOSThread()
	} else if err == ErrOver {
		err = nil
	}
	return err
}
