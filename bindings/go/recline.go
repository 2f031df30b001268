// Package recline is a process of a computation that recline coordinates, by cgo over librecline.a.
//
//	a, begin, err := recline.Root("a")  // the line "BEGIN a"
//	fork, start, err := a.Fork("b")     // the line, and what the child starts from
//	b, err := recline.Born(start)
//	message, err := a.Send()            // what goes with a message
//	err = b.Receive(message)            // Older or Newer where it is not of this epoch
//	check, err := b.Check()             // b.State is kept with the checkpoint: Process{State: kept}
//
// Each call is one step. A call that reports gives the line of its report. A call that is refused gives a Fault, and the process stays as it
// was. Any goroutines may call at once, each with processes of its own.
package recline

// #cgo CFLAGS: -I${SRCDIR}/../../include
// #cgo LDFLAGS: -L${SRCDIR}/../../dist -lrecline
// #include "recline.h"
import "C"

import (
	"fmt"
	"strings"
	"unsafe"
)

// A Fault says why a call is refused, by its number in recline.h.
type Fault int

const (
	Memory       Fault = C.RECLINE_MEMORY        // memory is wanting: try again
	NoState      Fault = C.RECLINE_NO_STATE      // the state is the text of no process
	NoText       Fault = C.RECLINE_NO_TEXT       // what was handed over is no text that the call takes
	NoName       Fault = C.RECLINE_NO_NAME       // it is no name
	SelfTarget   Fault = C.RECLINE_SELF_TARGET   // the process is to retire into itself
	NameTaken    Fault = C.RECLINE_NAME_TAKEN    // the child is to have the name of the process
	NotWaiting   Fault = C.RECLINE_NOT_WAITING   // the retirement is into another process, or this one's own
	Older        Fault = C.RECLINE_OLDER         // it is of an older epoch: a message is dropped; AbsorbKept takes a retirement that was kept
	Newer        Fault = C.RECLINE_NEWER         // it is of a newer epoch: keep it until this process has returned, too
	Worn         Fault = C.RECLINE_WORN          // the process made 4,294,967,295 reports
	NothingOwned Fault = C.RECLINE_NOTHING_OWNED // the id owns nothing
	ClockFull    Fault = C.RECLINE_CLOCK_FULL    // a value would be greater than 4,294,967,295
	TooDeep      Fault = C.RECLINE_TOO_DEEP      // an id would be deeper than 40, or there is no leaf of the depth that is asked for
	Overlap      Fault = C.RECLINE_OVERLAP       // the process and the retired one own a point in common
	OtherProcess Fault = C.RECLINE_OTHER_PROCESS // the state that was kept is another process's
	NotKnown     Fault = C.RECLINE_NOT_KNOWN     // the message tells what the process does not know
)

var words = [...]string{
	"memory is wanting", "no state", "no text that the call takes", "no name", "itself as the target", "a name that is taken", "not waiting",
	"an older epoch", "a newer epoch", "worn", "an id that owns nothing", "a clock that is full", "too deep", "an overlap", "another process",
	"not known to the process",
}

// Error gives a fault in words, and its number.
func (fault Fault) Error() string {
	if k := -int(fault) - 1; k >= 0 && k < len(words) {
		return fmt.Sprintf("recline: %s (%d)", words[k], int(fault))
	}
	return fmt.Sprintf("recline: fault %d", int(fault))
}

// Must gives what a call gave, and panics where it was refused.
func Must[T any](given T, err error) T {
	if err != nil {
		panic(err)
	}
	return given
}

// A Process has a state, a text that is kept with each checkpoint. Whether a text that was kept is one shows at the next call.
type Process struct {
	State string
}

// What a call of recline.h is given: room for its texts.
type call func(out *C.char, room C.size_t) C.int64_t

// What a call of recline.h on a process is given: its state, and room.
type step func(state *C.char, size C.size_t, out *C.char, room C.size_t) C.int64_t

// passed gives a text as recline.h takes it. An empty one has a place, too.
func passed(text string) (*C.char, C.size_t) {
	bytes := append([]byte(text), 0)
	return (*C.char)(unsafe.Pointer(&bytes[0])), C.size_t(len(text))
}

// texts gives the texts of a call, with as much room as it wants.
func texts(made call) ([]string, error) {
	out := make([]byte, 1024)
	for {
		size := made((*C.char)(unsafe.Pointer(&out[0])), C.size_t(len(out)))
		if size < 0 {
			return nil, Fault(size)
		}
		if int64(size) <= int64(len(out)) {
			return strings.Split(string(out[:size]), "\n"), nil
		}
		out = make([]byte, size)
	}
}

// take gives the texts of a step but the first, which is the new state.
func (process *Process) take(made step) ([]string, error) {
	state, size := passed(process.State)
	given, err := texts(func(out *C.char, room C.size_t) C.int64_t { return made(state, size, out, room) })
	if err != nil {
		return nil, err
	}
	process.State = given[0]
	return given[1:], nil
}

// first gives the first text of a step behind the state.
func (process *Process) first(made step) (string, error) {
	given, err := process.take(made)
	if err != nil {
		return "", err
	}
	return given[0], nil
}

// Root begins a computation: its root, and the line of its BEGIN.
func Root(name string) (*Process, string, error) {
	text, size := passed(name)
	given, err := texts(func(out *C.char, room C.size_t) C.int64_t { return C.recline_root(text, size, out, room) })
	if err != nil {
		return nil, "", err
	}
	return &Process{given[0]}, given[1], nil
}

// Born gives the child that begins with what its parent handed over.
func Born(start string) (*Process, error) {
	text, size := passed(start)
	given, err := texts(func(out *C.char, room C.size_t) C.int64_t { return C.recline_born(text, size, out, room) })
	if err != nil {
		return nil, err
	}
	return &Process{given[0]}, nil
}

// Work works on, which is not reported.
func (process *Process) Work() error {
	_, err := process.take(func(s *C.char, n C.size_t, out *C.char, room C.size_t) C.int64_t {
		return C.recline_work(s, n, out, room)
	})
	return err
}

// Check takes a checkpoint. The line is reported once the new state is on disk with it.
func (process *Process) Check() (string, error) {
	return process.first(func(s *C.char, n C.size_t, out *C.char, room C.size_t) C.int64_t {
		return C.recline_check(s, n, out, room)
	})
}

// Present tells the present state. The next step has to be one that is reported.
func (process *Process) Present() (string, error) {
	return process.first(func(s *C.char, n C.size_t, out *C.char, room C.size_t) C.int64_t {
		return C.recline_present(s, n, out, room)
	})
}

// Send sends a message: the text that goes with it.
func (process *Process) Send() (string, error) {
	return process.first(func(s *C.char, n C.size_t, out *C.char, room C.size_t) C.int64_t {
		return C.recline_send(s, n, out, room)
	})
}

// Again gives the same message with the epoch that this process has: to be handed over once more behind a settlement, where its sending is
// not undone.
func (process *Process) Again(message string) (string, error) {
	text, size := passed(message)
	return process.first(func(s *C.char, n C.size_t, out *C.char, room C.size_t) C.int64_t {
		return C.recline_again(s, n, text, size, out, room)
	})
}

// Receive receives a message, by the text that came with it.
func (process *Process) Receive(message string) error {
	text, size := passed(message)
	_, err := process.take(func(s *C.char, n C.size_t, out *C.char, room C.size_t) C.int64_t {
		return C.recline_receive(s, n, text, size, out, room)
	})
	return err
}

// two gives a line, and what is handed to another process.
func two(given []string, err error) (string, string, error) {
	if err != nil {
		return "", "", err
	}
	return given[0], given[1], nil
}

// Fork makes a child, which gets half of the id: the line, and the start of the child.
func (process *Process) Fork(child string) (line, start string, err error) {
	text, size := passed(child)
	return two(process.take(func(s *C.char, n C.size_t, out *C.char, room C.size_t) C.int64_t {
		return C.recline_fork(s, n, text, size, out, room)
	}))
}

// ForkSmall is the same, but the child gets a leaf of this depth.
func (process *Process) ForkSmall(child string, depth uint8) (line, start string, err error) {
	text, size := passed(child)
	return two(process.take(func(s *C.char, n C.size_t, out *C.char, room C.size_t) C.int64_t {
		return C.recline_fork_small(s, n, text, size, C.uint8_t(depth), out, room)
	}))
}

// Retire ends: the line, and the retirement for the target. The process has no state any more.
func (process *Process) Retire(target string) (line, retirement string, err error) {
	text, size := passed(target)
	state, length := passed(process.State)
	line, retirement, err = two(texts(func(out *C.char, room C.size_t) C.int64_t {
		return C.recline_retire(state, length, text, size, out, room)
	}))
	if err == nil {
		process.State = ""
	}
	return line, retirement, err
}

// Absorb absorbs a retirement into this process, of its epoch.
func (process *Process) Absorb(retirement string) (string, error) {
	text, size := passed(retirement)
	return process.first(func(s *C.char, n C.size_t, out *C.char, room C.size_t) C.int64_t {
		return C.recline_absorb(s, n, text, size, out, room)
	})
}

// AbsorbKept is the same for one of this epoch or an older one, of a process that is at "retired" in the line of each settlement since.
func (process *Process) AbsorbKept(retirement string) (string, error) {
	text, size := passed(retirement)
	return process.first(func(s *C.char, n C.size_t, out *C.char, room C.size_t) C.int64_t {
		return C.recline_absorb_kept(s, n, text, size, out, room)
	})
}

// ReturnTo returns to this state, which was kept at its position in the line of the settlement of this epoch.
func (process *Process) ReturnTo(kept string, epoch uint32) error {
	text, size := passed(kept)
	_, err := process.take(func(s *C.char, n C.size_t, out *C.char, room C.size_t) C.int64_t {
		return C.recline_return_to(s, n, text, size, C.uint32_t(epoch), out, room)
	})
	return err
}

// Returned is the same where the process crashed and was made of that state. Whether it had returned to this settlement and gone on by then,
// or to a later one, is the caller's to know.
func (process *Process) Returned(epoch uint32) error {
	_, err := process.take(func(s *C.char, n C.size_t, out *C.char, room C.size_t) C.int64_t {
		return C.recline_returned(s, n, C.uint32_t(epoch), out, room)
	})
	return err
}
