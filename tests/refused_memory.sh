#!/bin/bash
# Lets each allocation fail in turn: the first, the second, and so on until a run in which none failed; in each test of
# each crate, as `rt test` or `rt ci` built it, in each program of rows, a file of rows at a time, and in the program over the
# sample tables in its three styles, and without arguments. A program of rows makes a call once more where it was out of
# memory, so that its output is as usual; there, in one run, each 100,000th allocation fails. A test holds whichever fails: the call answers as usual or reports that it is out of memory, and answers as usual
# when it is called again. The program ends with status 1 and 'error: out of memory', and what it wrote is a beginning of
# its usual output; or it writes its usual output, as where the standard library asks once more.
# In each run the library that lets them fail has to be there: it leaves how many calls of malloc and realloc it saw. In a
# test that takes no memory these are none; but the tests of a crate together make calls that fail, and the program of the
# tests lists just as many as the sources have.
# usage: tests/refused_memory.sh [--write] [-s STEP] [CRATE|program ..], by default every crate and the program
# With -s STEP of the allocations past the hundredth of a test only one in STEP fails, and of those of a file of rows one in ten
# times STEP.
# With --write the numbers of docs/TESTING.md become those of this run: the program's where it was swept, and those of the
# crates where all were. It goes with no STEP, and writes nothing where a case failed.
# The last line is 'N passed, M failed', one for each test, each file, each style and each crate. Without a C compiler nothing
# fails, and a line 'skipped: refused_memory: WHY' says so. CC is the compiler with its words, by default cc.
source "$(dirname "$0")/usage.sh"
takes 1000 --write -s -- "$@"
set -u
cd "$(dirname "$0")/.." || exit 1
root=$PWD
step=1 is_writing='' every=0
# how many allocations lie between two that fail in one run of a program of rows: more than any row takes
between=100000
if [ "${1:-}" = --write ]; then
    is_writing=yes
    shift
fi
if [ "${1:-}" = -s ]; then
    step=$2
    shift 2
fi
source tests/judging.sh
folder=$(mktemp -d)
trap 'rm -rf "$folder"' EXIT
read -r -a compiler <<<"${CC:-cc}"
command -v "${compiler[0]}" >/dev/null || skipped_all "there is no C compiler ${compiler[0]}"
"${compiler[@]}" -O2 -shared -fPIC -o "$folder/refuse.so" tests/refuse_nth.c -ldl ||
    failed_all "${compiler[*]} builds tests/refuse_nth.c"

# failing N COMMAND..: the command's status where its N-th allocation fails; the file mark stands where it was, and the file
# calls has how many there were. The file refused_allocation, where the command runs, has the number, up to the five for
# which a test says which call fails.
failing() {
    local number=$1
    shift
    rm -f "$folder/mark" "$folder/calls" "$folder/refused_allocation"
    [ "$number" -gt 5 ] || echo "$number" >"$folder/refused_allocation"
    (cd "$folder" && exec timeout 60 env REFUSED="$number" EVERY="$every" MARK=mark CALLS=calls LD_PRELOAD=./refuse.so "$@") >"$folder/out" 2>"$folder/err"
}

# has_failed N: leaves in $calls how many calls the library saw in the run, and in $why what is wrong if it wasn't there, or
# let the N-th fail where there is none, or didn't where there is one.
has_failed() {
    calls=0 why=
    if [ ! -e "$folder/calls" ]; then
        why="the library that lets allocations fail wasn't loaded"
    elif ! read -r calls <"$folder/calls"; then
        calls=0 why='the process was ended'
    elif [ -e "$folder/mark" ] && [ "$calls" -lt "$1" ] || [ ! -e "$folder/mark" ] && [ "$calls" -ge "$1" ]; then
        why="$calls calls were seen"
    fi
}

# sweep HOLDS COMMAND..: each allocation in turn; HOLDS STATUS says whether what the run left holds. Leaves in $failures how
# many failed, and in $calls how many calls the last run made, in which none did.
sweep() {
    local holds=$1 number=1 status faults=''
    shift
    failures=0
    while :; do
        failing "$number" "$@" <"$folder/input"
        status=$?
        has_failed "$number"
        "$holds" "$status" || why="${why:+$why, }status $status: $(tail -n 2 "$folder/err" "$folder/out" | tail -c 300)"
        [ -z "$why" ] || faults+="where allocation $number fails: $why"$'\n'
        [ -e "$folder/mark" ] || break
        [ "$every" = 0 ] || [ "$number" -le "$every" ] || break
        failures=$((failures + 1))
        number=$((number + (number < 100 ? 1 : step)))
    done
    judge "$*" same '' "$faults"
}

# is_of_rows CRATE: whether it is a program of rows.
is_of_rows() {
    [ -e "crates/$1/args" ] && grep -q '\.rows$' "crates/$1/args"
}

# The test holds.
test_holds() {
    [ "$1" = 0 ]
}

# The program of rows answers as usual.
rows_hold() {
    [ "$1" = 0 ] && cmp -s "$folder/out" "$folder/usual"
}

# The program answers as usual, or where an allocation failed reports it behind a beginning of its usual output.
program_holds() {
    if [ "$1" = 1 ] && [ -e "$folder/mark" ]; then
        reported=$((reported + 1))
        cmp -s "$folder/err" "$folder/memory" &&
            head -c "$(stat -c %s "$folder/out")" "$folder/usual" | cmp -s - "$folder/out"
    else
        [ "$1" = 0 ] && [ ! -s "$folder/err" ] && cmp -s "$folder/out" "$folder/usual"
    fi
}

# is_whole TESTS WANTED CALLS FAILURES: whether that many tests were wanted, and calls were seen, of which some failed.
is_whole() {
    [ "$1" -gt 0 ] && [ "$1" -eq "$2" ] && [ "$3" -gt 0 ] && [ "$4" -gt 0 ]
}

# The tests of a crate, each by itself.
sweep_crate() {
    local program=$root/crates/$1/out/$1_tests list name tests=0 wanted seen=0 total=0
    if [ ! -x "$program" ]; then
        judge "$1: no tests are built: 'rt test' in crates/$1 builds them" false
        return
    fi
    if ! list=$("$program" --list); then
        judge "$1: its tests aren't listed" false
        return
    fi
    : >"$folder/input"
    while read -r name; do
        sweep test_holds "$program" "$name"
        tests=$((tests + 1)) seen=$((seen + calls)) total=$((total + failures))
    done < <(sed -n 's/: test$//p' <<<"$list")
    wanted=$(grep -rh '^ *#\[test\]' "crates/$1/src" | wc -l)
    echo "$1: $tests tests, $seen calls, $total allocations refused"
    judge "$1: $tests tests are listed, $wanted stand in its sources, $seen calls, $total refused" \
        is_whole "$tests" "$wanted" "$seen" "$total"
}

# The files of rows of a program, each by itself.
sweep_rows() {
    local program=$root/crates/$1/out/$1 data=$root/crates/$1/data file files=0 seen=0 total=0
    local -a documents
    if [ ! -x "$program" ]; then
        judge "$1: it isn't built: 'rt run' in crates/$1 builds it" false
        return
    fi
    : >"$folder/input"
    mapfile -t documents < <(grep -v '\.rows$' "crates/$1/args" | sed "s|^|$data/|")
    every=$between
    [ "$step" = 1 ] || step=$((step * 10))
    while read -r file; do
        "$program" "${documents[@]}" "$data/$file" >"$folder/usual" 2>"$folder/err"
        sweep rows_hold "$program" "${documents[@]}" "$data/$file"
        files=$((files + 1)) seen=$((seen + calls)) total=$((total + failures))
    done < <(grep '\.rows$' "crates/$1/args")
    every=0
    echo "$1: $files files of rows, $seen calls, $total allocations refused"
    judge "$1: $files files of rows, $seen calls, $total runs" is_whole "$files" "$files" "$seen" "$total"
}

# The program over lines of each kind.
sweep_program() {
    local program=$root/crates/decfmt/out/decfmt words
    { printf '1650\n-987654.321\n+0012\nx\n999500\r\n'; printf '9%.0s' {1..2000}; echo; } >"$folder/input"
    echo 'error: out of memory' >"$folder/memory"
    for words in '' 'en - plain' 'en - short' 'fr - long' 'ar-EG latn plain min2'; do
        read -r -a words <<<"${words:+$root/tables/sample.json $words}"
        "$program" "${words[@]}" <"$folder/input" >"$folder/usual" 2>/dev/null
        reported=0
        sweep program_holds "$program" "${words[@]}"
        echo "decfmt ${words[*]:1}: $calls calls, $failures allocations refused, $reported times out of memory"
        judge "decfmt ${words[*]:1}: $calls calls, $reported times out of memory, $(wc -l <"$folder/usual") lines, wanted 6" \
            is_whole "$(wc -l <"$folder/usual")" 6 "$calls" "$reported"
    done
}

# write FILE NAME.. with what a run of these names printed: docs/TESTING.md has its numbers, between the comments
# <!-- refused_memory NAME --> and <!-- end -->.
write() {
    python3 - "$@" <<'PYTHON'
import re
import sys
import time

names = sys.argv[2:]
page = "docs/TESTING.md"
with open(sys.argv[1], encoding="utf-8") as file:
    printed = file.read()


def replace(text, name, new):
    """The text with what stands between the comments of a name replaced."""
    parts = re.split(rf"(<!-- refused_memory {name} -->).*?(<!-- end -->)", text, flags=re.S)
    if len(parts) != 4:
        sys.exit(f"refused_memory: {page} hasn't the comments of {name} just once")
    return parts[0] + parts[1] + new + parts[2] + parts[3]


def number(digits):
    """A number as the page writes it."""
    return format(int(digits), ",")


with open(page, encoding="utf-8") as file:
    text = file.read()
styles = re.findall(r"^decfmt (.*): (\d+) calls, (\d+) allocations refused, (\d+) times out of memory$", printed, flags=re.M)
crates = re.findall(r"^(\w+): (\d+) (?:tests|files of rows), \d+ calls, (\d+) allocations refused$", printed, flags=re.M)
if styles:
    each = ", ".join(f"{f'`{words}`' if words else 'without arguments'} {number(refused)}" for words, _, refused, _ in styles)
    text = replace(text, "program", each)
    usual = [str(int(refused) - int(reported)) for _, _, refused, reported in styles]
    text = replace(text, "usual", f"{', '.join(usual[:-1])} and {usual[-1]}")
if not names:
    rows = [*crates, ("decfmt", str(len(styles)), str(sum(int(refused) for _, _, refused, _ in styles)))]
    tests, refused = (sum(int(row[at]) for row in crates) for at in (1, 2))
    lines = [f"The last whole sweep was on {time.strftime('%d %B %Y').lstrip('0')}. For a program of rows the table has its files, and how",
             "many runs of them had failing allocations; for `decfmt` it has the lists of arguments.", ""]
    lines += ["| crate | tests or files | allocations that failed |", "|---|---|---|"]
    lines += [f"| `{name}` | {number(count)} | {number(total)} |" for name, count, total in rows]
    lines += [f"| together | {number(tests)} | {number(refused)} |"]
    text = replace(text, "crates", "\n" + "\n".join(lines) + "\n")
    text = replace(text, "together", f"[{number(refused)} of {number(tests)} tests and files](#failing-allocations)")
with open(page, "w", encoding="utf-8") as file:
    file.write(text)
PYTHON
}

if [ "$is_writing" ]; then
    [ "$step" = 1 ] || failed_all '--write goes with no STEP'
    "$root/tests/refused_memory.sh" "$@" | tee "$folder/printed"
    [ "${PIPESTATUS[0]}" = 0 ] && write "$folder/printed" "$@"
    exit
fi
if [ $# = 0 ]; then
    for crate in crates/*/; do
        crate=$(basename "$crate")
        is_of_rows "$crate" || grep -rqs '^ *#\[test\]' "crates/$crate/src" && set -- "$@" "$crate"
    done
    set -- "$@" program
fi
# Several names are swept side by side, each by a run of this script, and what these printed follows in the order of the names.
if [ $# -gt 1 ]; then
    # shellcheck disable=SC2016 # the inner shell has these words
    printf '%s\n' "$@" | xargs -P "$(nproc)" -I NAME sh -c '"$0" -s "$1" "$2" >"$3/$2.printed" 2>&1' "$root/tests/refused_memory.sh" "$step" NAME "$folder"
    for name; do
        count=$(tail -n 1 "$folder/$name.printed")
        if [[ $count =~ ^([0-9]+)\ passed,\ ([0-9]+)\ failed$ ]]; then
            head -n -1 "$folder/$name.printed"
            passed=$((passed + BASH_REMATCH[1])) failed=$((failed + BASH_REMATCH[2]))
        else
            cat "$folder/$name.printed"
            judge "$name has no count" false
        fi
    done
elif [ "$1" = program ]; then
    sweep_program
elif is_of_rows "$1"; then
    sweep_rows "$1"
else
    sweep_crate "$1"
fi
ended_all
