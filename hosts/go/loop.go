package wasmloop

// #include "wasmloop.h"
import "C"

import (
	"context"
	"math"
	"sync"
	"sync/atomic"
	"time"
)

// Loop runs a guest's loop in the goroutine that calls Run, its work requests in others.
type Loop struct {
	h       *C.wasmloop_handle
	started time.Time
	asks    chan func()
	jobs    map[C.uint32_t]context.CancelFunc // of the requests whose work runs
	done    chan worked
	over    chan struct{}
	ran     uint32
}

// worked is a request whose work has ended; job is nil if a context ended it.
type worked struct {
	request C.uint32_t
	job     *C.wasmloop_handle
}

// So much work of a loop runs at a time. A guest that queues and cancels for ever has no more: what it has cancelled runs on.
const mostWork = 32

// Loop makes a loop of the module: the limits of a callback, and the fuel of a work request. The number stands in its jobs.
func (m *Module) Loop(limits, work Limits, number uint32) (*Loop, error) {
	l := &Loop{h: handle(), started: time.Now(), asks: make(chan func(), 64), jobs: map[C.uint32_t]context.CancelFunc{},
		done: make(chan worked, mostWork), over: make(chan struct{})}
	c := C.wasmloop_limits{fuel: limits.or().fuel, work_fuel: work.or().fuel, number: C.uint32_t(number), depth: limits.or().depth}
	return l, check(C.wasmloop_loop(m.h, &c, l.h))
}

// ask has f run in the loop's goroutine, while no callback is paused.
func (l *Loop) ask(f func()) error {
	select {
	case <-l.over:
	default:
		select {
		case l.asks <- f:
			return nil
		case <-l.over:
		}
	}
	return ErrClosed
}

// answer waits for what f returns, or for the end of the loop.
func (l *Loop) answer(f func() (C.int32_t, C.int)) (n int32, err error) {
	answered := make(chan struct{})
	if err := l.ask(func() {
		answer, s := f()
		n, err = int32(answer), check(s)
		close(answered)
	}); err != nil {
		return 0, err
	}
	select {
	case <-answered:
		return n, err
	case <-l.over:
		return 0, ErrClosed
	}
}

// Send reaches the guest's async, from any goroutine. Behind the end of Run it returns ErrClosed.
func (l *Loop) Send(number uint32) error {
	return l.ask(func() { C.wasmloop_async_send(l.h, C.uint32_t(number)) })
}

// Request submits a work request, from any goroutine but that of Run: its number, or an error of the guest's interface below 0.
func (l *Loop) Request(op uint32, input []byte) (int32, error) {
	return l.answer(func() (n C.int32_t, s C.int) {
		s = C.wasmloop_request(l.h, C.uint32_t(op), pointer(input), C.size_t(len(input)), &n)
		return
	})
}

// Cancel cancels a request, and ends its work, from any goroutine but that of Run: 0, or an error of the guest's own cancel.
func (l *Loop) Cancel(request int32) (int32, error) {
	return l.answer(func() (n C.int32_t, s C.int) {
		s = C.wasmloop_cancel(l.h, C.uint32_t(request), &n)
		if end := l.jobs[C.uint32_t(request)]; end != nil && n == 0 {
			end()
		}
		return
	})
}

func (l *Loop) deliver(ctx context.Context, wait *sync.WaitGroup) {
	for job := handle(); len(l.jobs) < mostWork && C.wasmloop_next_job(l.h, job) == C.WASMLOOP_OK; job = handle() {
		var a C.wasmloop_about
		C.wasmloop_job_about(job, &a)
		work, end := context.WithCancel(ctx)
		l.jobs[a.request] = end
		wait.Add(1)
		go func(job *C.wasmloop_handle) {
			defer wait.Done()
			if runJob(work, job) != nil {
				job = nil
			}
			end()
			l.done <- worked{a.request, job} // there is room
		}(job)
	}
}

// sleep waits for what comes next: an ask, a reply, a timer of the guest's, or the end of ctx.
func (l *Loop) sleep(ctx context.Context, wait C.uint64_t) {
	var due <-chan time.Time
	if wait != C.WASMLOOP_FOREVER {
		timer := time.NewTimer(time.Duration(math.Min(float64(wait), 1<<31)) * time.Millisecond)
		defer timer.Stop()
		due = timer.C
	}
	select {
	case f := <-l.asks:
		f()
	case w := <-l.done:
		delete(l.jobs, w.request)
		if w.job != nil {
			C.wasmloop_accept(l.h, w.job) // a stale one keeps its handle, for its finalizer
		}
	case <-ctx.Done():
	case <-due:
	}
}

// Run returns when the loop is over, has failed, or ctx is done, and may be called once. It calls emit with each callback's values.
func (l *Loop) Run(ctx context.Context, emit func([]int64)) error {
	if !atomic.CompareAndSwapUint32(&l.ran, 0, 1) {
		return ErrClosed
	}
	ctx, cancel := context.WithCancel(ctx)
	var wait sync.WaitGroup
	defer func() {
		cancel()
		wait.Wait()
		close(l.over)
		C.wasmloop_drop(l.h)
	}()
	var told C.wasmloop_turned
	for {
		C.wasmloop_clock(l.h, C.uint64_t(time.Since(l.started).Milliseconds()), new(C.uint64_t))
		for over := C.uint32_t(0); over == 0; {
			if err := ctx.Err(); err != nil {
				return err
			}
			if err := check(C.wasmloop_turn_for(l.h, ^C.uint32_t(0), slice, &over, &told)); err != nil {
				return err
			}
		}
		if told.did.emits > 0 {
			values := make([]int64, told.did.emits)
			C.wasmloop_emits(l.h, (*C.int64_t)(&values[0]), C.size_t(len(values)), new(C.uint32_t))
			emit(values)
		}
		if told.did.what == C.WASMLOOP_FAILED || told.did.ending != C.WASMLOOP_RETURN {
			return ended(l.h, told.did.ending, told.did.trap, told.did.used)
		}
		l.deliver(ctx, &wait)
		switch told.did.what {
		case C.WASMLOOP_OVER:
			return nil
		case C.WASMLOOP_ENTERED:
			l.sleep(ctx, told.wait)
		}
	}
}
