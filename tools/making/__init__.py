"""What tools/mutate and tools/interop make files of. Python's standard library alone."""
