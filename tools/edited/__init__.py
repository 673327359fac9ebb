"""For tools/check_edits: what an edit does to the code of a function, and which names its proofs cite."""
