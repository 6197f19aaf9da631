// Package wasmloop runs untrusted WebAssembly modules within fuel, depth and memory.
//
// It is linked with the library's archive: build.sh, or any build with CGO_CFLAGS=-I.../include and CGO_LDFLAGS=.../libwasmloop.a.
//
// The finalizer of each object is on its handle, which a call into C keeps alive: a handle is dropped after its last call, never during one.
package wasmloop

/*
#include "wasmloop.h"
static wasmloop_call_limits limits_or(uint64_t fuel, uint32_t depth) { return (wasmloop_call_limits){ fuel ? fuel : 1000000, depth ? depth : 64, 0 }; }
*/
import "C"

import (
	"context"
	"errors"
	"fmt"
	"math"
	"runtime"
	"strconv"
	"strings"
	"sync"
	"unsafe"
)

const (
	slice = 100000  // units between two looks at a context
	start = 1000000 // the most units of a start function, which runs at once: some milliseconds
)

// Limits of a call or a job. Zero values stand for 1,000,000 units and a depth of 64.
type Limits struct {
	Fuel  uint64
	Depth uint32
}

func (l Limits) or() C.wasmloop_call_limits {
	return C.limits_or(C.uint64_t(l.Fuel), C.uint32_t(l.Depth))
}

// Status is what a call of the library returned, other than OK.
type Status int

func (s Status) Error() string { return "wasmloop: " + C.GoString(C.wasmloop_status_text(C.int(s))) }

// ErrClosed is returned by an object behind its Close.
var ErrClosed = errors.New("wasmloop: closed")

// Refused says why a module was rejected.
type Refused struct{ Why string }

func (r *Refused) Error() string { return "wasmloop: rejected: " + r.Why }

// Stopped says why, and where, a guest did not return: Ending is "spent", "depth" or a trap's name, Text how it ended, in words.
type Stopped struct {
	Ending, Where string
	Used          uint64
	Text          string
}

func (s *Stopped) Error() string { return fmt.Sprintf("wasmloop: %s, %s", s.Text, s.Where) }

func check(s C.int) error {
	if s == C.WASMLOOP_OK {
		return nil
	}
	if s == C.WASMLOOP_EMPTY {
		return ErrClosed
	}
	return Status(s)
}

// text is what a call wrote of n bytes.
func text(into *[1000]C.char, n C.uint64_t) string {
	if n > 1000 {
		n = 1000
	}
	return C.GoStringN(&into[0], C.int(n))
}

func pointer(b []byte) *C.uint8_t {
	if len(b) == 0 {
		return nil
	}
	return (*C.uint8_t)(unsafe.Pointer(&b[0]))
}

// an object of its own: cgo refuses a pointer into one that has Go pointers too
func handle() *C.wasmloop_handle {
	h := new(C.wasmloop_handle)
	runtime.SetFinalizer(h, func(h *C.wasmloop_handle) { C.wasmloop_drop(h) })
	return h
}

// Module may be used by many goroutines at once.
type Module struct{ h *C.wasmloop_handle }

// New loads a module, or returns a *Refused.
func New(bytes []byte) (*Module, error) {
	m := &Module{handle()}
	var fault C.wasmloop_fault
	var into [1000]C.char
	var n C.uint64_t
	s := C.wasmloop_load_told(pointer(bytes), C.size_t(len(bytes)), m.h, &fault, &into[0], 1000, &n)
	if s == C.WASMLOOP_REFUSED {
		return nil, &Refused{text(&into, n)}
	}
	return m, check(s)
}

// ended says how a run of h ended: by one of wasmloop_ended's endings.
func ended(h *C.wasmloop_handle, ending, trap C.uint32_t, used C.uint64_t) error {
	var into, how [1000]C.char
	var n, count C.uint64_t
	if C.wasmloop_stop_told(nil, 0, h, &into[0], 1000, &n) != C.WASMLOOP_OK {
		n = 0
	}
	C.wasmloop_ended_text(ending, trap, used, &how[0], 1000, &count)
	name := C.wasmloop_ending_name(ending)
	if ending == C.WASMLOOP_TRAP {
		name = C.wasmloop_trap_name(trap)
	}
	return &Stopped{C.GoString(name), text(&into, n), uint64(used), text(&how, count)}
}

// Reply is what a work function returned.
type Reply struct {
	Value int32
	Bytes []byte
	Used  uint64
}

func runJob(ctx context.Context, job *C.wasmloop_handle) error {
	for over := C.uint32_t(0); over == 0; {
		if err := ctx.Err(); err != nil {
			return err
		}
		if err := check(C.wasmloop_job_run_for(job, slice, &over)); err != nil {
			return err
		}
	}
	return nil
}

// Work runs uv_work on fresh memory. It ends with ctx's error between two slices.
func (m *Module) Work(ctx context.Context, op uint32, input []byte, limits Limits) (*Reply, error) {
	job := handle()
	l := limits.or()
	task := C.wasmloop_task{fuel: l.fuel, op: C.uint32_t(op), depth: l.depth}
	if err := check(C.wasmloop_job_new(m.h, &task, pointer(input), C.size_t(len(input)), job)); err != nil {
		return nil, err
	}
	defer C.wasmloop_drop(job) // its memory is not left to the collector
	if err := runJob(ctx, job); err != nil {
		return nil, err
	}
	var a C.wasmloop_about
	C.wasmloop_job_about(job, &a)
	switch a.outcome {
	case C.WASMLOOP_WORK_DONE:
	case C.WASMLOOP_WORK_MEMORY:
		return nil, Status(C.WASMLOOP_MEMORY)
	default: // outcomes are numbered as endings are, from 1
		return nil, ended(job, a.outcome-1, a.value, a.used)
	}
	var at *C.uint8_t
	var n C.uint64_t
	C.wasmloop_job_view(job, &at, &n)
	r := &Reply{Value: int32(a.value), Used: uint64(a.used)}
	if n > 0 {
		r.Bytes = C.GoBytes(unsafe.Pointer(at), C.int(n))
	}
	return r, nil
}

// Export is an export of a module: its name, and "function", "table", "memory" or "global".
type Export struct{ Name, Kind string }

// Exports lists the exports, in the module's order.
func (m *Module) Exports() []Export { return m.exports(math.MaxInt) }

// exports lists the first exports, at most so many.
func (m *Module) exports(most int) (all []Export) {
	var l C.wasmloop_listed
	var t C.wasmloop_type
	for at := C.uint64_t(0); len(all) < most && C.wasmloop_export_at(m.h, at, nil, 0, &l, &t) == C.WASMLOOP_OK; at++ {
		name := make([]byte, int(l.length)+1)
		C.wasmloop_export_at(m.h, at, (*C.char)(unsafe.Pointer(&name[0])), C.size_t(l.length), &l, &t)
		all = append(all, Export{string(name[:l.length]), [...]string{"function", "table", "memory", "global"}[l.kind]})
	}
	return all
}

// functions says which functions there are, for a sentence: some of the first, since a module may have very many.
func (m *Module) functions() string {
	var names []string
	for _, e := range m.exports(200) {
		if quoted := strconv.Quote(e.Name); e.Kind == "function" && len(quoted) < 100 {
			names = append(names, quoted)
		}
	}
	if len(names) == 0 {
		return "the module exports no function"
	}
	if len(names) > 20 {
		names = append(names[:20], "..")
	}
	return "the module exports " + strings.Join(names, ", ")
}

// Func is an exported function of a module, looked up once.
type Func struct {
	m       *Module
	number  C.uint64_t
	params  []uint8 // 1 i32, 2 i64
	results []uint8
}

// Func looks an exported function up.
func (m *Module) Func(name string) (*Func, error) {
	f := &Func{m: m}
	var t C.wasmloop_type
	at := (*C.char)(unsafe.Pointer(&append([]byte(name), 0)[0]))
	if C.wasmloop_export_number(m.h, at, &f.number) != C.WASMLOOP_OK || C.wasmloop_function(m.h, at, &t) != C.WASMLOOP_OK || strings.Contains(name, "\x00") {
		return nil, fmt.Errorf("wasmloop: no function %q: %s", name, m.functions())
	}
	f.params = C.GoBytes(unsafe.Pointer(&t.param[0]), C.int(t.params))
	f.results = C.GoBytes(unsafe.Pointer(&t.result[0]), C.int(t.results))
	return f, nil
}

// Instance keeps its memory from call to call. Goroutines may share it: its calls take turns.
type Instance struct {
	mutex  sync.Mutex
	h      *C.wasmloop_handle
	m      *Module
	limits C.wasmloop_call_limits
	ended  C.wasmloop_ended
	args   [256]C.uint64_t
}

// Instance makes one, and runs the module's start function with at most 1,000,000 units.
func (m *Module) Instance(limits Limits) (*Instance, error) {
	i := &Instance{h: handle(), m: m, limits: limits.or()}
	first := i.limits
	if first.fuel > start {
		first.fuel = start
	}
	s := C.wasmloop_instance(m.h, &first, i.h, &i.ended)
	if s == C.WASMLOOP_NOT_STARTED {
		return nil, ended(i.h, i.ended.ending, i.ended.trap, i.ended.used)
	}
	return i, check(s)
}

// Close drops the instance; calls behind it return ErrClosed.
func (i *Instance) Close() {
	i.mutex.Lock()
	defer i.mutex.Unlock()
	C.wasmloop_drop(i.h)
}

// run runs a call in slices: one crossing into C, if it is over within the first. A call that ctx ends leaves the instance as it stood.
func (i *Instance) run(ctx context.Context, f *Func, n int) error {
	over := C.uint32_t(0)
	err := check(C.wasmloop_call_for(i.h, f.number, &i.args[0], C.size_t(n), &i.limits, slice, &over, &i.ended))
	for err == nil && over == 0 {
		if err := ctx.Err(); err != nil {
			C.wasmloop_call_end(i.h, &i.ended)
			return err
		}
		err = check(C.wasmloop_call_run_for(i.h, slice, &over, &i.ended))
	}
	return err
}

// Call takes and returns an i32 as its value, sign extended. It returns the first result, or 0 without one. If ctx ends, so does the call, and the instance
// keeps its state.
func (i *Instance) Call(ctx context.Context, f *Func, args ...int64) (int64, error) {
	if len(args) != len(f.params) || f.m != i.m {
		return 0, Status(C.WASMLOOP_ARGUMENTS)
	}
	if err := ctx.Err(); err != nil {
		return 0, err
	}
	i.mutex.Lock()
	defer i.mutex.Unlock()
	for k, a := range args {
		i.args[k] = C.uint64_t(a)
		if f.params[k] == 1 {
			if a != int64(int32(a)) && a != int64(uint32(a)) {
				return 0, Status(C.WASMLOOP_ARGUMENTS)
			}
			i.args[k] = C.uint64_t(uint32(a))
		}
	}
	if err := i.run(ctx, f, len(args)); err != nil {
		return 0, err
	}
	if i.ended.ending != C.WASMLOOP_RETURN {
		return 0, ended(i.h, i.ended.ending, i.ended.trap, i.ended.used)
	}
	if len(f.results) > 0 && f.results[0] == 1 {
		return int64(int32(i.ended.result[0])), nil
	}
	return int64(i.ended.result[0]), nil
}

// Read copies n bytes out of the memory.
func (i *Instance) Read(at uint32, n int) ([]byte, error) {
	i.mutex.Lock()
	defer i.mutex.Unlock()
	if n < 0 || n > 64*65536 { // the most that a guest has, before so much is allocated
		return nil, Status(C.WASMLOOP_RANGE)
	}
	b := make([]byte, n)
	return b, check(C.wasmloop_read(i.h, C.uint32_t(at), pointer(b), C.size_t(n)))
}

// Write copies bytes into the memory.
func (i *Instance) Write(at uint32, b []byte) error {
	i.mutex.Lock()
	defer i.mutex.Unlock()
	return check(C.wasmloop_write(i.h, C.uint32_t(at), pointer(b), C.size_t(len(b))))
}
