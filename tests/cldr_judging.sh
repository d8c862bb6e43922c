# How tests/cldr_tables.sh judges tables, on top of tests/judging.sh. It sets `tool`, `program`, `locnum` and `folder`.
# shellcheck shell=bash
source "$(dirname "${BASH_SOURCE[0]}")/judging.sh"

# makes NAME WORD..: the tables of these words, with all that is left out, end with status 0, in the files NAME.json and
# NAME.err.
makes() {
    made=$1
    shift
    python3 "$tool" --verbose "$@" >"$folder/$made.json" 2>"$folder/$made.err"
    judge "$made: status $?" [ $? = 0 ]
    awk -v folder="$folder/$made" '/^"[a-z_]*":\[$/ {split($0, words, "\""); key = words[2]; next}
        key {sub(/,$/, ""); print >(folder "." key)}' "$folder/$made.json"
}

# has KEY ENTRY..: under this key of the tables made last stand all these entries.
has() {
    local key=$1 entry
    shift
    for entry in "$@"; do
        judge "$made: no $key $entry" grep -qxF -e "$entry" "$folder/$made.$key"
    done
}

# counts KEY NUMBER: that many entries stand under this key.
counts() {
    judge "$made: $1 has not $2 entries" [ "$(grep -c '^[{[]' "$folder/$made.$1")" = "$2" ]
}

# reports LINE..: these lines are reported, and no others.
reports() {
    printf '%s\n' "$@" >"$folder/wanted"
    [ $# -gt 0 ] || : >"$folder/wanted"
    judge "$made: standard error" diff "$folder/wanted" "$folder/$made.err"
}

# listed NAME..: the tables made last have symbols and rules for these names, and for no others; `names` then has them.
listed() {
    names=("$@")
    printf '%s\n' "$@" | sort >"$folder/wanted"
    for key in symbols rules; do
        grep -o '^{"locale":"[^"]*"' "$folder/$made.$key" | cut -d'"' -f4 | sort -u >"$folder/out"
        judge "$made: names of $key" diff "$folder/wanted" "$folder/out"
    done
}

# is_named LOCALE NAME..: in the tables made last each name has just the entries of the locale.
is_named() {
    local locale=$1 name
    shift
    for name in "$@"; do
        for key in symbols rules short long; do
            judge "$made: $key of $name" diff <(grep -F "{\"locale\":\"$locale\"," "$folder/$made.$key") \
                <(sed -n "s/^{\"locale\":\"$name\",/{\"locale\":\"$locale\",/p" "$folder/$made.$key")
        done
    done
}

# means ANSWER NAME..: in the release of names each name is answered so, with status 0 if it means a locale.
means() {
    local answer=$1 name status=0
    [[ $answer = 'the locale '* ]] || status=4
    shift
    for name in "$@"; do
        ends $status "$folder/known" --which "$name"
        judge "$name means" diff <(printf '%s\n' "$name: $answer") "$folder/out"
    done
}

# ends STATUS WORD..: the tool ends with this status.
ends() {
    local wanted=$1 status
    shift
    python3 "$tool" "$@" >"$folder/out" 2>"$folder/err"
    status=$?
    judge "$*: status $status, wanted $wanted" [ $status = "$wanted" ]
}

# answers WORDS INPUT OUTPUT: what decfmt writes with the tables made last.
answers() {
    local words
    read -r -a words <<<"$1"
    printf '%b' "$2" | timeout 20 "$program" "$folder/$made.json" "${words[@]}" >"$folder/out" 2>&1
    printf '%b' "$3" >"$folder/wanted"
    judge "decfmt $1" diff "$folder/wanted" "$folder/out"
}

# pays OUTPUT WORD..: what locnum writes with the tables made last, status 0.
pays() {
    local wanted=$1
    shift
    timeout 20 "$locnum" -t "$folder/$made.json" "$@" >"$folder/out" 2>&1
    judge "locnum $*: status $?" [ $? = 0 ]
    printf '%b' "$wanted" >"$folder/wanted"
    judge "locnum $*" diff "$folder/wanted" "$folder/out"
}
