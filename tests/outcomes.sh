# How scripts of this folder that source it judge runs of a program, by their status, standard output and standard error.
# shellcheck shell=bash
source "$(dirname "${BASH_SOURCE[0]}")/judging.sh"
folder=$(mktemp -d)
trap 'rm -rf "$folder"' EXIT
status=

# ran COMMAND..: runs a command for 20 seconds at most, and leaves its status in $status and the rest in the files out and err.
ran() {
    timeout 20 "$@" >"$folder/out" 2>"$folder/err"
    status=$?
}

# is_as_wanted STATUS: whether what a run left is as wanted; it prints what differs.
is_as_wanted() {
    local held=0
    [ "$status" = "$1" ] || { echo "status ${status:-none}, wanted $1"; held=1; }
    diff --label 'wanted output' --label output -u "$folder/wanted_out" "$folder/out" || held=1
    diff --label 'wanted standard error' --label 'standard error' -u "$folder/wanted_err" "$folder/err" || held=1
    return $held
}

# judge_run NAME STATUS OUTPUT ERROR: a case, by what a run left in $status and the files out and err, which each case makes
# anew. ERROR is the line of standard error without its end, several with a line feed between them, or nothing.
judge_run() {
    printf '%b' "$3" >"$folder/wanted_out"
    printf '%s' "$4" >"$folder/wanted_err"
    [ -z "$4" ] || echo >>"$folder/wanted_err"
    judge "$1" is_as_wanted "$2"
    rm -f "$folder/out" "$folder/err" "$folder/status"
    status=
}
