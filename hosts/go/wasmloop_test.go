package wasmloop

import (
	"context"
	"errors"
	"fmt"
	"os"
	"runtime"
	"strings"
	"sync"
	"testing"
	"time"
)

func read(t testing.TB, path string) []byte {
	b, err := os.ReadFile(path)
	if err != nil {
		t.Fatal(err)
	}
	return b
}

func guest(t testing.TB, path string) *Module {
	m, err := New(read(t, path))
	if err != nil {
		t.Fatal(err)
	}
	return m
}

func fn(t testing.TB, m *Module, name string) *Func {
	f, err := m.Func(name)
	if err != nil {
		t.Fatal(err)
	}
	return f
}

func made(t testing.TB, m *Module, limits Limits) *Instance {
	i, err := m.Instance(limits)
	if err != nil {
		t.Fatal(err)
	}
	return i
}

var bg = context.Background()

const rules = "../guest/rules.wasm"

func TestRejected(t *testing.T) {
	whole := read(t, rules)
	for _, b := range [][]byte{nil, []byte("abc"), whole[:200], []byte("\x00asm\x01\x00\x00\x00\xff")} {
		if _, err := New(b); !errors.As(err, new(*Refused)) {
			t.Error(err)
		}
	}
}

func TestCalls(t *testing.T) {
	m := guest(t, rules)
	i := made(t, m, Limits{})
	if x, err := i.Call(bg, fn(t, m, "score"), 5); x != 162 || err != nil {
		t.Error(x, err)
	}
	divide := fn(t, m, "divide")
	if x, err := i.Call(bg, divide, -7, 2); x != -3 || err != nil {
		t.Error(x, err)
	}
	stopped := new(Stopped)
	if _, err := i.Call(bg, divide, 1, 0); !errors.As(err, &stopped) || stopped.Ending != "division by zero" || !strings.Contains(stopped.Where, "(divide)") ||
		!strings.HasPrefix(err.Error(), "wasmloop: division by zero, after 3 units, in function ") {
		t.Error(err)
	}
	for _, wrong := range [][]int64{{1}, {1, 2, 3}, {1 << 40, 1}} {
		if _, err := i.Call(bg, divide, wrong...); err == nil {
			t.Error("accepted", wrong)
		}
	}
	at, _ := i.Call(bg, fn(t, m, "room"), 100)
	if err := i.Write(uint32(at), []byte("Ab Cd")); err != nil {
		t.Error(err)
	}
	n, _ := i.Call(bg, fn(t, m, "slug"), at, 5, at+5, 64)
	if b, err := i.Read(uint32(at)+5, int(n)); string(b) != "ab-cd" {
		t.Error(string(b), err)
	}
	if _, err := i.Read(0, 1<<40); !errors.Is(err, Status(6)) {
		t.Error(err)
	}
	for _, name := range []string{"none", "", "score\x00"} {
		if _, err := m.Func(name); err == nil || !strings.Contains(err.Error(), `: the module exports "`) || !strings.Contains(err.Error(), `"score", `) {
			t.Error("found", name, err)
		}
	}
	for _, e := range []Export{{"score", "function"}, {"memory", "memory"}} {
		if !strings.Contains(fmt.Sprint(m.Exports()), fmt.Sprint(e)) {
			t.Error("not exported", e)
		}
	}
	i.Close()
	if _, err := i.Call(bg, divide, 1, 1); err != ErrClosed {
		t.Error(err)
	}
}

func TestHostile(t *testing.T) {
	m := guest(t, rules)
	i := made(t, m, Limits{})
	for name, ending := range map[string]string{"spin": "spent", "grow": "spent", "copies": "spent", "deep": "depth"} {
		stopped := new(Stopped)
		if _, err := i.Call(bg, fn(t, m, name), 1); !errors.As(err, &stopped) || stopped.Ending != ending || strings.Contains(err.Error(), "spent") {
			t.Error(name, err)
		}
	}
	for op, ending := range []string{1: "spent", 2: "an access outside the memory", 4: "spent", 5: "spent", 6: "depth"} {
		stopped := new(Stopped)
		if _, err := m.Work(bg, uint32(op), nil, Limits{}); ending != "" && (!errors.As(err, &stopped) || stopped.Ending != ending) {
			t.Error(op, err)
		}
	}
	for _, op := range []uint32{1, 4, 5} { // a deadline
		ctx, cancel := context.WithTimeout(bg, 50*time.Millisecond)
		began := time.Now()
		if _, err := m.Work(ctx, op, nil, Limits{Fuel: 1 << 50}); err != context.DeadlineExceeded || time.Since(began) > 500*time.Millisecond {
			t.Error(op, err, time.Since(began))
		}
		cancel()
	}
	ctx, cancel := context.WithTimeout(bg, 50*time.Millisecond)
	defer cancel()
	long, running := made(t, m, Limits{Fuel: 1 << 50}), fn(t, m, "running")
	if x, err := long.Call(ctx, running, 3); x != 3 || err != nil {
		t.Error(x, err)
	}
	for _, name := range []string{"spin", "grow", "copies"} {
		ctx, cancel := context.WithTimeout(bg, 50*time.Millisecond)
		began := time.Now()
		if _, err := long.Call(ctx, fn(t, m, name), 1); err != context.DeadlineExceeded || time.Since(began) > 500*time.Millisecond {
			t.Error(name, err, time.Since(began))
		}
		cancel()
	}
	if x, err := long.Call(bg, running, 4); x != 7 || err != nil { // the instance and its state live on
		t.Error(x, err)
	}
	<-ctx.Done()
	if _, err := i.Call(ctx, fn(t, m, "score"), 1); err != context.DeadlineExceeded {
		t.Error(err)
	}
	if x, err := i.Call(bg, fn(t, m, "score"), 5); x != 162 || err != nil {
		t.Error(x, err)
	}
}

func TestGoroutines(t *testing.T) {
	m := guest(t, rules)
	i, running := made(t, m, Limits{}), fn(t, m, "running")
	var wait sync.WaitGroup
	for k := 0; k < 16; k++ {
		wait.Add(1)
		go func() {
			defer wait.Done()
			for j := 0; j < 50; j++ {
				if r, err := m.Work(bg, 0, []byte("Hello World"), Limits{}); err != nil || string(r.Bytes) != "hello-world" {
					t.Error(r, err)
				}
				if _, err := i.Call(bg, running, 1); err != nil {
					t.Error(err)
				}
				made(t, m, Limits{}) // is left to the collector
				if j%10 == 0 {
					runtime.GC()
				}
			}
		}()
	}
	wait.Wait()
	if x, _ := i.Call(bg, running, 0); x != 800 {
		t.Error(x)
	}
}

func TestLoops(t *testing.T) {
	for name, want := range map[string]int{"ticker": 0, "digest": 0, "chatter": 0} {
		l, err := guest(t, "../../examples/"+name+".wasm").Loop(Limits{Fuel: 1e8}, Limits{Fuel: 1e8}, 0)
		if err != nil {
			t.Fatal(err)
		}
		if err := l.Run(bg, func(v []int64) { want += len(v) }); err != nil || want == 0 {
			t.Error(name, err, want)
		}
		if err := l.Run(bg, nil); err != ErrClosed {
			t.Error(err)
		}
		for k := 0; k < 100; k++ { // more than are kept: none blocks
			if err := l.Send(0); k == 99 && err != ErrClosed {
				t.Error(err)
			}
		}
	}
}

func TestLoopEnds(t *testing.T) {
	l, err := guest(t, "../../examples/ticker.wasm").Loop(Limits{Fuel: 1e8}, Limits{}, 0)
	if err != nil {
		t.Fatal(err)
	}
	ctx, cancel := context.WithCancel(bg)
	cancel()
	if err := l.Run(ctx, func([]int64) {}); err != context.Canceled {
		t.Error(err)
	}
}

func TestLoopAsks(t *testing.T) {
	l, err := guest(t, "../guest/echo.wasm").Loop(Limits{Fuel: 1e8}, Limits{Fuel: 1 << 50}, 0)
	if err != nil {
		t.Fatal(err)
	}
	ctx, cancel := context.WithCancel(bg)
	ended, values := make(chan error), make(chan int64, 1000)
	go func() {
		ended <- l.Run(ctx, func(v []int64) {
			for _, x := range v {
				values <- x
			}
		})
	}()
	if n, err := l.Request(0, []byte("abc")); n <= 0 || err != nil || <-values != int64(n)<<32|3 {
		t.Error(n, err)
	}
	if n, err := l.Request(0, make([]byte, 65537)); n != -22 || err != nil {
		t.Error(n, err)
	}
	for k := 0; k < 100; k++ { // more than may be outstanding: endless, but cancelled
		n, err := l.Request(1, nil)
		if answer, wrong := l.Cancel(n); n <= 0 || err != nil || answer != 0 || wrong != nil {
			t.Fatal(n, err, answer, wrong)
		}
		if answer, err := l.Cancel(n); answer == 0 || err != nil {
			t.Error(answer, err)
		}
	}
	if err := l.Send(2); err != nil { // a callback that does not end within this test
		t.Error(err)
	}
	time.Sleep(20 * time.Millisecond)
	cancel()
	if err := <-ended; err != context.Canceled {
		t.Error(err)
	}
	if _, err := l.Request(0, nil); err != ErrClosed {
		t.Error(err)
	}
}

func TestLoopFails(t *testing.T) {
	l, err := guest(t, "../guest/echo.wasm").Loop(Limits{Fuel: 1e8}, Limits{}, 0)
	if err != nil {
		t.Fatal(err)
	}
	l.Send(1)
	stopped := new(Stopped)
	if err := l.Run(bg, func([]int64) {}); !errors.As(err, &stopped) || stopped.Ending != "unreachable" || !strings.Contains(stopped.Where, "(on_fail)") {
		t.Error(err)
	}
}

// A guest that queues endless work and cancels it, for ever, has no more of it than others.
func TestWaste(t *testing.T) {
	l, err := guest(t, "../guest/echo.wasm").Loop(Limits{Fuel: 1e8}, Limits{Fuel: 1 << 50}, 0)
	if err != nil {
		t.Fatal(err)
	}
	ctx, cancel := context.WithTimeout(bg, 10*time.Second)
	if err := l.Send(4); err != nil {
		t.Error(err)
	}
	most := 0
	go func() {
		for runtime.NumGoroutine() < mostWork && ctx.Err() == nil {
			time.Sleep(time.Millisecond)
		}
		time.Sleep(200 * time.Millisecond)
		most = runtime.NumGoroutine()
		cancel()
	}()
	if err := l.Run(ctx, func([]int64) {}); err != context.Canceled || most > mostWork+20 {
		t.Error(err, most, "goroutines")
	}
}

func BenchmarkCall(b *testing.B) {
	m := guest(b, rules)
	i, f := made(b, m, Limits{}), fn(b, m, "score")
	for k := 0; k < b.N; k++ {
		i.Call(bg, f, 5)
	}
}

func BenchmarkCallContext(b *testing.B) {
	m := guest(b, rules)
	i, f := made(b, m, Limits{}), fn(b, m, "score")
	ctx, cancel := context.WithCancel(bg)
	defer cancel()
	for k := 0; k < b.N; k++ {
		i.Call(ctx, f, 5)
	}
}

func BenchmarkNothing(b *testing.B) {
	for k := 0; k < b.N; k++ {
		nothing()
	}
}
