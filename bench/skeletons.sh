#!/bin/bash
# Measures how long it takes to read a number skeleton: 300,000 lines with some thirty skeletons, by programs/skeletons.rattle.
# usage: bench/skeletons.sh
source "$(dirname "$0")/../tests/usage.sh"
takes 0 -- "$@"
set -u
cd "$(dirname "$0")" || exit 1
. ./common.sh
program skeletons number_skeleton || exit 1
for _ in $(seq 1 10000); do cat skeletons.txt; done >build/skeletons.txt
lines=$(wc -l <build/skeletons.txt)
row 'skeletons' 'nanoseconds each' 'bytes each'
row --- --- ---
row 'read' "$(($(took build/skeletons build/skeletons.txt) * 1000 / lines))" "$(($(wc -c <build/skeletons.txt) / lines))"
