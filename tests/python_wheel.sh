#!/bin/bash
# Makes the wheel of the Python package, without the network, and runs the package's tests in a fresh virtual environment.
# usage: tests/python_wheel.sh [ARCHIVE] [--build FOLDER]; ARCHIVE is libtalmuiga.a, by default one that is built
# With --build the wheel alone is made, in FOLDER. PYTHON is the Python, by default Debian's /usr/bin/python3.
# The last line is 'N passed, M failed'; what isn't there is reported by a line 'skipped: python_wheel: WHY'.
source "$(dirname "$0")/usage.sh"
takes 2 --build -- "$@"
set -u
archive=
if [ $# -gt 0 ] && [ "$1" != --build ]; then
    archive=$(realpath -- "$1")
    shift
fi
cd "$(dirname "$0")/.." || exit 1
root=$PWD python=${PYTHON:-/usr/bin/python3}
source tests/judging.sh
# What wheels are made and installed with.
wanted='import importlib.util as u, sys; sys.exit(not all(map(u.find_spec, ("pip", "setuptools", "venv", "wheel"))))'
"$python" -c "$wanted" 2>/dev/null || skipped_all "no pip, setuptools, venv or wheel for $python"
folder=$(mktemp -d)
trap 'rm -rf "$folder"' EXIT
if [ ! "$archive" ]; then
    tests/c_library.sh --build "$folder/lib" || exit 1
    archive=$folder/lib/libtalmuiga.a
fi
# setuptools writes beside its sources
cp -r python "$folder/python"
TALMUIGA_ARCHIVE=$(realpath "$archive") TALMUIGA_INCLUDE=$root/include "$python" -m pip wheel --quiet --no-index --no-deps \
    --no-build-isolation --wheel-dir "$folder/wheel" "$folder/python" >"$folder/said" 2>&1 ||
    { cat "$folder/said"; failed_all 'the wheel is made'; }
if [ "${1:-}" = --build ]; then
    [ $# = 2 ] || failed_all '--build: which folder?'
    mkdir -p "$2" && cp "$folder"/wheel/*.whl "$2/"
    exit
fi
# install: puts the wheel into a virtual environment of its own.
install() {
    "$python" -m venv "$folder/fresh" && "$folder/fresh/bin/pip" install --quiet --no-index "$folder"/wheel/*.whl
}
install >"$folder/said" 2>&1 || { cat "$folder/said"; failed_all 'the wheel is installed'; }
export PYTHONUTF8=1
# README.md and docs/LIBRARY.md show what they say
awk '/^```python$/ { shown = 1; next } /^```$/ { shown = 0 } shown' README.md docs/LIBRARY.md >"$folder/README"
"$folder/fresh/bin/python" -m doctest "$folder/README" || failed_all 'as README.md and docs/LIBRARY.md show'
# the tests count their cases themselves
cd "$folder" || exit 1
"$folder/fresh/bin/python" "$root/python/tests/test_talmuiga.py" "$root/tables/sample.json" "$root/tables/six_locales.json" \
    "$root/crates/rows_messages/data/messages.json" || failed_all 'the tests end'
