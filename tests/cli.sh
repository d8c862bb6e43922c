#!/bin/bash
# Runs the built program on a table of cases: status, standard output and standard error.
# usage: tests/cli.sh [PROGRAM]
# The last line is 'N passed, M failed'. A case that can't be made here is reported by a line 'skipped: cli: WHY'.
source "$(dirname "$0")/usage.sh"
takes 1 -- "$@"
program=${1:-$(dirname "$0")/../crates/decfmt/out/decfmt}
usage='usage: decfmt TABLES LOCALE NU|- plain|short|long [auto|never|always|min2]'
io_failed='error: input or output failed'
memory='error: out of memory'
rejected='error: tables refused'
no_data='error: no data'
sample=$(dirname "$0")/../tables/sample.json
source "$(dirname "$0")/outcomes.sh"

# same_as COMMAND..: reads all of standard input, and writes 'the same' where it is the command's output, else where not.
same_as() {
    cmp - <("$@") 2>&1 && echo 'the same'
    cat >/dev/null
}

# times NUMBER LINE: this line that many times.
times() {
    yes "$2" | head -n "$1"
}

# ended WORD..: the program with these words, its standard error in the file err and its status in the file status.
ended() {
    timeout 300 "$program" "$@" 2>"$folder/err"
    echo $? >"$folder/status"
}

# slow_reader: gives on what it reads, nothing for half a second, and then a block of 4096 bytes every other millisecond.
slow_reader() {
    python3 -c '
import os, time
time.sleep(0.5)
block = os.read(0, 4096)
while block:
    os.write(1, block)
    time.sleep(0.002)
    block = os.read(0, 4096)
'
}

# lines NAME INPUT OUTPUT: status 0 and nothing on standard error.
lines() {
    ran "$program" < <(printf '%b' "$2")
    judge_run "$1" 0 "$3" ''
}

# ends NAME STATUS ERROR WORD..: nothing on standard output.
ends() {
    local name=$1 wanted=$2 error=$3
    shift 3
    ran "$program" "$@" < <(echo 5)
    judge_run "$name" "$wanted" '' "$error"
}

# words NAME WORD..: status 2 and the usage line.
words() {
    local name=$1
    shift
    ends "$name" 2 "$usage" "$@"
}

# answers WORDS INPUT OUTPUT: with these words after the sample tables, status 0 and nothing on standard error.
answers() {
    local words
    read -r -a words <<<"$1"
    ran "$program" "$sample" "${words[@]}" < <(printf '%b' "$2")
    judge_run "$1: ${2:0:40}" 0 "$3" ''
}

# tables TEXT: a file of this text is rejected.
tables() {
    printf '%b' "$1" >"$folder/tables.json"
    ends "tables ${1:0:60}" 3 "$rejected" "$folder/tables.json" en - plain
}

lines 'the first lines' '1000007\n-987654.321\n' '1,000,007\n-987,654.321\n'
lines 'padding, zero, fractions, plus' '0012\n-0\n1.20\n.5\n+5\n' '0,012\n-0\n1.20\n0.5\n+5\n'
lines 'a point without a digit' '12.\n' 'error: not a decimal\n'
lines 'an exponent' '1e3\n' 'error: not a decimal\n'
lines 'a sign alone' '+\n' 'error: not a decimal\n'
lines 'an empty line' '\n' 'error: not a decimal\n'
lines 'a byte that is no text' '\xff\n1\n' 'error: not a decimal\n1\n'
lines 'a space' ' 5\n' 'error: not a decimal\n'
lines 'no input' '' ''
lines 'a last line without a line feed' '5\n1234' '5\n1,234\n'
lines 'a carriage return' '5\n6\r\n7' '5\n6\n7\n'
lines 'two carriage returns' '5\r\r\n6\n' 'error: not a decimal\n6\n'
lines 'a carriage return inside' '5\r6\n' 'error: not a decimal\n'
nines=$(head -c 32769 /dev/zero | tr '\0' 9)
lines 'too many digits' "$nines\n8\n" 'error: too many digits\n8\n'
lines 'too many digits and a letter' "${nines}x\n" 'error: not a decimal\n'

words 'a word' plain
words 'an empty word' ''
words 'a word that is no text' $'\xff'
words 'the tables alone' "$sample"
words 'three words' en - plain
words 'six words' "$sample" en - plain never never
words 'an unknown strategy' "$sample" en - short min3
words 'an unknown style' "$sample" en - compact
words 'a numbering system in capitals' "$sample" en Latn plain
words 'a locale with an underscore' "$sample" en_US - plain
words 'wrong words and no file' "$folder/none" en Latn plain
words 'words that are no text and no file' "$folder/none" $'\xff' - plain
words 'a path that is no text' $'\xff' en - plain

# The tables' file.
ends 'a missing file' 1 "$io_failed" "$folder/none" en - plain
ends 'an empty path' 1 "$io_failed" '' en - plain
ends 'a folder for tables' 1 "$io_failed" "$folder" en - plain
cp "$sample" "$folder/closed.json"
chmod 000 "$folder/closed.json"
# root reads each file, but for one that gave up the right to.
unprivileged=()
[ "$(id -u)" != 0 ] || unprivileged=(setpriv --bounding-set '-dac_override,-dac_read_search')
if "${unprivileged[@]}" cat "$sample" >/dev/null 2>&1 && ! "${unprivileged[@]}" cat "$folder/closed.json" >/dev/null 2>&1; then
    ran "${unprivileged[@]}" "$program" "$folder/closed.json" en - plain < <(echo 5)
    judge_run 'an unreadable file' 1 '' "$io_failed"
else
    skipped 'no file is unreadable here'
fi

tables ''
tables '\xff'
tables '{"symbols":[],"digits":[],"x":"\xff"}'
tables '{"symbols":[]'
tables "$(head -c 200 /dev/zero | tr '\0' '[')$(head -c 200 /dev/zero | tr '\0' ']')"
tables '{}'
tables '{"symbols":[]}'
tables '[]'
tables '{"x":1.5}'
tables '{"symbols":[],"digits":[],"x":1e5}'
tables '{"symbols":[],"digits":[["latn","012345678"]]}'
tables '{"symbols":[],"digits":[["Latn","0123456789"]]}'
tables '{"symbols":[],"digits":[],"rules":[{"rules":[]}]}'
tables '{"symbols":[],"digits":[],"rules":[{"locale":"e_n","rules":[]}]}'
tables '{"symbols":[],"digits":[],"rules":[{"locale":"en","rules":[["one","x = 1"]]}]}'
tables '{"symbols":[],"digits":[],"short":[{"locale":"en","patterns":[[3,4,{"other":"{0}K"}]]}]}'
tables '{"symbols":[],"digits":[],"short":[{"locale":"en","patterns":[[4,3,{"other":"a"}],[4,4,{"other":"b"}]]}]}'
tables '{"symbols":[],"digits":[],"short":[{"locale":"en","patterns":[[3,3,{"other":"{0}{0}"}]]}]}'

# 50 MB of tables whose last entry is a number; and where 200 MB of memory are allowed.
entry='{"locale":"a","minus":["",""],"plus":["",""],"decimal":".","group":",","numsys":"latn","sizes":[3,3,1]},'
{ printf '{"symbols":['; yes "$entry" | head -n 500000 | tr -d '\n'; printf '7],"digits":[]}'; } >"$folder/large.json"
ends 'large tables' 3 "$rejected" "$folder/large.json" en - plain
echo 5 | (ulimit -v 200000; exec timeout 120 "$program" "$folder/large.json" en - plain) >"$folder/out" 2>"$folder/err"
status=$?
judge_run 'large tables in little memory' 1 '' "$memory"
rm "$folder/large.json"

printf '{"symbols":[],"digits":[]}' >"$folder/tables.json"
ends 'tables without an entry' 4 "$no_data" "$folder/tables.json" en - plain
ends 'a locale without symbols' 4 "$no_data" "$sample" xx - plain
ends 'a locale without short patterns' 4 "$no_data" "$sample" fr - short
ends 'a locale without plural rules' 4 "$no_data" "$sample" es-MX - short
ends 'a locale without long patterns or rules' 4 "$no_data" "$sample" th - long

# Plain numbers by the sample tables.
answers 'en - plain' '-987654.321\n0012\n-0\n1.20\n.5\n' '-987,654.321\n0,012\n-0\n1.20\n0.5\n'
answers 'en - plain auto' '1000\n10000\n100000\n1000000\n' '1,000\n10,000\n100,000\n1,000,000\n'
answers 'en - plain min2' '1000\n10000\n100000\n1000000\n0012\n' '1000\n10,000\n100,000\n1,000,000\n0012\n'
answers 'en - plain never' '1000\n1000000\n' '1000\n1000000\n'
answers 'bn latn plain' '1000\n10000\n100000\n1000000\n' '1,000\n10,000\n1,00,000\n10,00,000\n'
answers 'bn latn plain min2' '1000\n10000\n100000\n1000000\n' '1000\n10,000\n1,00,000\n10,00,000\n'
answers 'bn - plain' '1000007\n' '১০,০০,০০৭\n'
answers 'en arab plain' '1234\n' '١,٢٣٤\n'
answers 'ar-EG - plain' '1234\n' '١٬٢٣٤\n'
answers 'ar-EG latn plain' '1234\n' '1,234\n'
answers 'ar-EG thai plain' '1234\n' '๑٬๒๓๔\n'
answers 'en wxyz plain' '1234\n' '1,234\n'
answers 'ar-EG wxyz plain' '1234\n' '١٬٢٣٤\n'
answers 'th thai plain' '1000007\n' '๑,๐๐๐,๐๐๗\n'
answers 'es-MX - plain' '12345.67\n' '12,345.67\n'
answers 'fr - plain' '999999\n' '999\xe2\x80\xaf999\n'

# Short numbers.
answers 'en - short' '999499.99\n999500.00\n2207\n15127\n3010349\n-13132\n' '999K\n1M\n2.2K\n15K\n3M\n-13K\n'
answers 'en - short' '1650\n1750\n1950\n9950\n9949\n' '1.6K\n1.8K\n2K\n10K\n9.9K\n'
answers 'en - short' '0\n2\n843\n0.2222\n999.5\n9.95\n-1172700\n' '0\n2\n843\n0.22\n1K\n10\n-1.2M\n'
answers 'en - short' '-0.00\n0.996\n0.0995\n099950\n99950\n' '-0\n1\n0.1\n100K\n100K\n'
answers 'en - short' '0999499\n0999500\n00999500\n' '0999K\n1M\n1M\n'
answers 'en - short' '1000000000000000\n10000000000000000\n' '1000T\n10,000T\n'
answers 'en - short always' '1000000000000000\n10000000000000000\n' '1,000T\n10,000T\n'
answers 'en - short never' '1000000000000000\n10000000000000000\n' '1000T\n10000T\n'
answers 'en - short' '12.\n1e3\n+\n\n5\n6\r\n7' "$(printf 'error: not a decimal\\n%.0s' 1 2 3 4)5\n6\n7\n"
answers 'en - short' '' ''
fitting=$(head -c 32768 /dev/zero | tr '\0' 9)
answers 'en - short' "$fitting\n${fitting}9\n1650\n" 'error: overflow\nerror: too many digits\n1.6K\n'

# Long numbers.
answers 'en - long' '1000000000000000\n10000000000000000\n' '1000 trillion\n10,000 trillion\n'
answers 'en - long always' '1000000000000000\n10000000000000000\n' '1,000 trillion\n10,000 trillion\n'
answers 'en - long never' '1000000000000000\n10000000000000000\n' '1000 trillion\n10000 trillion\n'
answers 'fr - long' '1000\n35357670\n1172700\n999999\n' 'mille\n35 millions\n1,2 million\n1 million\n'
answers 'bn - long' '35357670\n' '৩.৫ কোটি\n'
answers 'ja - long' '35357670\n' '3536万\n'

# Many lines, more than a pipe or a block holds.
times 200000 1234567 | timeout 120 "$program" 2>"$folder/err" | same_as times 200000 1,234,567 >"$folder/out"
status=${PIPESTATUS[1]}
judge_run 'many lines' 0 'the same\n' ''

# A slow reader: the program waits at a full pipe and loses nothing.
times 50000 1234567 | ended | slow_reader | same_as times 50000 1,234,567 >"$folder/out"
status=$(cat "$folder/status")
judge_run 'a full pipe' 0 'the same\n' ''

# A reader of one byte at a time.
times 20000 1234567 | ended | dd bs=1 status=none | same_as times 20000 1,234,567 >"$folder/out"
status=$(cat "$folder/status")
judge_run 'a reader of single bytes' 0 'the same\n' ''

# A reader that goes away after the first line.
times 500000 1234567 | ended | head -n 1 >"$folder/out"
status=$(cat "$folder/status")
judge_run 'a closed reader' 1 '1,234,567\n' "$io_failed"

echo 5 | timeout 120 "$program" >&- 2>"$folder/err"
status=$?
: >"$folder/out"
judge_run 'a closed standard output' 1 '' "$io_failed"

timeout 120 "$program" </dev/null >&- 2>"$folder/err"
status=$?
: >"$folder/out"
judge_run 'a closed standard output and no input' 0 '' ''

ran "$program" <&-
judge_run 'a closed standard input' 1 '' "$io_failed"

ran "$program" <"$folder"
judge_run 'a folder as standard input' 1 '' "$io_failed"

if [ ! -c /dev/full ]; then
    skipped 'there is no full device'
else
    echo 5 | timeout 120 "$program" >/dev/full 2>"$folder/err"
    status=$?
    : >"$folder/out"
    judge_run 'a full device' 1 '' "$io_failed"
fi

# The status stands where the message can't be written.
echo 5 | timeout 120 "$program" plain >"$folder/out" 2>&-
status=$?
: >"$folder/err"
judge_run 'a closed standard error' 2 '' ''

# One line of 64 MB, where 40 MB of memory are allowed.
head -c 64000000 /dev/zero | tr '\0' 1 | (ulimit -v 40000; exec timeout 120 "$program") >"$folder/out" 2>"$folder/err"
status=$?
judge_run 'out of memory' 1 '' "$memory"

# Memory stays flat in the number of lines.
times 2000000 1234567 | (ulimit -v 10000; exec timeout 120 "$program") 2>"$folder/err" | same_as times 2000000 1,234,567 >"$folder/out"
status=${PIPESTATUS[1]}
judge_run 'many lines in little memory' 0 'the same\n' ''

# A reader that goes away before the first line, and one that goes late.
{ sleep 0.3; times 50000 1234567; } | ended | :
status=$(cat "$folder/status")
: >"$folder/out"
judge_run 'a reader closed before the first line' 1 '' "$io_failed"

times 300000 1234567 | ended | head -n 150000 | same_as times 150000 1,234,567 >"$folder/out"
status=$(cat "$folder/status")
judge_run 'a reader closed late' 1 'the same\n' "$io_failed"

# A terminal as standard input, where a line feed and a sign for the end of file are typed.
python3 - "$program" >"$folder/out" 2>"$folder/err" <<'END'
import os, pty, subprocess, sys
typed, terminal = pty.openpty()
program = subprocess.Popen(sys.argv[1:], stdin=terminal)
os.write(typed, b"1234567\n-5\n\x04")
sys.exit(program.wait(timeout=120))
END
status=$?
judge_run 'a terminal as standard input' 0 '1,234,567\n-5\n' ''

# Files that end in the middle of a character.
lines 'an end in the middle of a character' '5\n\xe2\x80' '5\nerror: not a decimal\n'
answers 'fr - long' '1000\n1\xe2\x80' 'mille\nerror: not a decimal\n'
printf '1000007\n1\xe0\xa7' >"$folder/lines"
ran "$program" "$sample" bn - plain <"$folder/lines"
judge_run 'a file that ends in the middle of a character' 0 '১০,০০,০০৭\nerror: not a decimal\n' ''
cut=$(LC_ALL=C grep -abo $'[\xc0-\xff]' "$sample" | head -n 1 | cut -d : -f 1)
head -c $((cut + 1)) "$sample" >"$folder/tables.json"
ends 'tables that end in the middle of a character' 3 "$rejected" "$folder/tables.json" en - plain

# A gigabyte of lines, the last of which is cut, where 10 MB of address space are allowed.
fraction=$(seq -s '' 1 50)
long=1234567.$fraction
bytes=1000000050
formatted() {
    times $((bytes / (${#long} + 1))) "1,234,567.$fraction"
    echo "1,234,567.${fraction:0:bytes % (${#long} + 1) - 8}"
}
yes "$long" | head -c "$bytes" | (ulimit -v 10000; exec timeout 120 "$program") 2>"$folder/err" | same_as formatted >"$folder/out"
status=${PIPESTATUS[2]}
judge_run 'a gigabyte in little memory' 0 'the same\n' ''

# The same failures in a compact mode.
times 50000 1650 | ended "$sample" en - short | slow_reader | same_as times 50000 1.6K >"$folder/out"
status=$(cat "$folder/status")
judge_run 'short: a full pipe' 0 'the same\n' ''

times 500000 1650 | ended "$sample" en - short | head -n 1 >"$folder/out"
status=$(cat "$folder/status")
judge_run 'short: a closed reader' 1 '1.6K\n' "$io_failed"

echo 5 | timeout 120 "$program" "$sample" en - short >&- 2>"$folder/err"
status=$?
: >"$folder/out"
judge_run 'short: a closed standard output' 1 '' "$io_failed"

ran "$program" "$sample" en - short <&-
judge_run 'short: a closed standard input' 1 '' "$io_failed"

if [ -c /dev/full ]; then
    echo 5 | timeout 120 "$program" "$sample" en - short >/dev/full 2>"$folder/err"
    status=$?
    : >"$folder/out"
    judge_run 'short: a full device' 1 '' "$io_failed"
fi

head -c 64000000 /dev/zero | tr '\0' 1 | (ulimit -v 40000; exec timeout 120 "$program" "$sample" en - short) >"$folder/out" 2>"$folder/err"
status=$?
judge_run 'short: out of memory' 1 '' "$memory"

times 500000 1650 | (ulimit -v 40000; exec timeout 300 "$program" "$sample" en - short) 2>"$folder/err" | same_as times 500000 1.6K >"$folder/out"
status=${PIPESTATUS[1]}
judge_run 'short: many lines in little memory' 0 'the same\n' ''

# Tables of 64 MB, where 40 MB of memory are allowed.
{ printf '{"symbols":"'; head -c 64000000 /dev/zero | tr '\0' 1; printf '"}'; } >"$folder/tables.json"
(ulimit -v 40000; exec timeout 120 "$program" "$folder/tables.json" en - plain) </dev/null >"$folder/out" 2>"$folder/err"
status=$?
judge_run 'tables: out of memory' 1 '' "$memory"

ended_all
