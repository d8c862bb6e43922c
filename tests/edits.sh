#!/bin/bash
# Tries the mutations of both sets, crates/NAME/must-fail/*.edit and crates/NAME/edits/*.edit, each by the goal or the test
# that its file names, and the controls, crates/NAME/edits/controls/*.edit, which have to be proved; tests/edits.py says what
# the lines of a mutation mean. edits.lock has, for each set of a crate, the hash under which the prover was seen to reject its
# mutations: of the crate's sources, definitions and proofs, of the set's mutations, of the definitions of the crates below it
# and of the contracts of what other crates can call there, and of the toolchain's logic. Where mutations name tests that show
# them, a second line, /shown, has the hash under which these were seen to fail: of the sources of the tests too, and not of
# proofs. So what was seen is tried again only where one of these is another. The prover sees the controls with the inner set,
# or with the outer one where a crate has no inner one.
# usage: tests/edits.sh [--gate | CRATE .. | CRATE/must-fail[/shown] .. | CRATE/edits[/shown] ..]
# Without arguments what has another hash than in edits.lock is tried; with arguments the sets of these crates, or these.
# They are tried over the libraries that `rt ci`, `rt all check` or `rt check` left in crates/NAME/out, EDITS_JOBS at a time.
# Where all mutations of a set are seen as they have to be, the line of edits.lock is written, and is to be committed. With
# --gate, as CI calls it, nothing is written, and a line that is of another state fails, though all mutations may be as they
# have to be.
# The last line is 'N passed, M failed': one for each mutation that is tried, one for each line that is as in edits.lock, and
# with --gate one for each line of another state.
source "$(dirname "$0")/usage.sh"
takes 1000 --gate -- "$@"
exec python3 "$(dirname "$0")/edits.py" "$@"
