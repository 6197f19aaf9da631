package wasmloop

// #include "wasmloop.h"
import "C"

// nothing is the crossing into C alone, for the benchmark: a test file may not import C.
func nothing() { C.wasmloop_version() }
