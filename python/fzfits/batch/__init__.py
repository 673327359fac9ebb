"""The command `fzbatch`: many files packed, checked and restored by calls of the program fz.

Each file has a row in a manifest in SQLite (`manifest`). One process, the coordinator (`run`), looks at the folders (`scan`),
decides what there is to do (`plan`), hands tasks to an engine (`engines`) and writes what comes back into the manifest. A task
(`work`) touches the two files that it names and nothing else.
"""
