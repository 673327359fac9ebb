"""What `tools/gate_times` knows of a gate: its provers, their seconds, the dearest functions, and what is read for sums of crates."""
