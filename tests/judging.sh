# How the scripts of this folder count their cases: they source this file, judge each case, and end by `ended_all`.
# shellcheck shell=bash
passed=0
failed=0

# judge NAME COMMAND..: counts a case, which holds where the command's status is 0. Of a case that fails it prints the name, and
# the first lines of what the command printed.
judge() {
    local name=$1 printed
    shift
    if printed=$("$@" 2>&1); then
        passed=$((passed + 1))
    else
        failed=$((failed + 1))
        echo "$(basename "$0" .sh): $name"
        [ -z "$printed" ] || head -n 20 <<<"$printed"
    fi
}

# same WANTED GIVEN: whether these texts are the same; it prints what differs.
same() {
    [ "$1" = "$2" ] || diff --label wanted --label given -u <(printf '%s\n' "$1") <(printf '%s\n' "$2")
}

# skipped WHY: says that cases can't be made here.
skipped() {
    echo "skipped: $(basename "$0" .sh): $1"
}

# ended_all: prints the count, the script's last line; its status is that of the script.
ended_all() {
    echo "$passed passed, $failed failed"
    [ "$failed" -eq 0 ]
}

# skipped_all WHY: the script ends, since none of its cases can be made here.
skipped_all() {
    skipped "$1"
    ended_all
    exit
}

# failed_all WHY: the script ends, since what its cases ask for can't be made.
failed_all() {
    judge "$1" false
    ended_all
    exit
}
