"""The parts of wasmloop.lower."""
