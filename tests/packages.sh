#!/bin/bash
# Looks for the packages that CI needs, installs those that are missing where it may, and otherwise says the command
# that does. Where none is missing it asks nothing of the network.
# usage: tests/packages.sh [LIST], by default tests/packages.txt
# A package isn't looked for where SKIP has all steps that need it. Without dpkg the commands of the packages are looked for.
# Exit status: 0 all is there, 1 something is missing, which the last lines name.
source "$(dirname "$0")/usage.sh"
takes 1 -- "$@"
set -u
list=${1:-$(dirname "$0")/packages.txt}
may_skip=" ${SKIP:-} "

# Leaves in $packages and in $commands what is wanted.
read_list() {
    local package needed step is_wanted
    packages=() commands=()
    while IFS='#' read -r package needed; do
        read -r package <<<"$package"
        [ "$package" ] || continue
        is_wanted=
        for step in ${needed#*:}; do
            [[ $may_skip == *" $step "* ]] || is_wanted=yes
        done
        [ "$is_wanted" ] || continue
        packages+=("$package")
        # shellcheck disable=SC2206
        commands+=(${needed%%:*})
    done <"$list"
}

# Leaves in $missing the packages that aren't installed.
look() {
    local package
    missing=()
    for package in "${packages[@]}"; do
        [ "$(dpkg-query -W -f '${db:Status-Status}' "$package" 2>/dev/null)" = installed ] || missing+=("$package")
    done
}

# The command that installs what is missing.
install() {
    DEBIAN_FRONTEND=noninteractive apt-get install -y --no-install-recommends "${missing[@]}" </dev/null
}

read_list
if ! command -v dpkg-query >/dev/null; then
    missing=()
    for command in "${commands[@]}"; do
        command -v "$command" >/dev/null || missing+=("$command")
    done
    echo "packages: wanted are the commands ${commands[*]}"
    [ ${#missing[@]} = 0 ] && exit 0
    echo "packages: missing: ${missing[*]}"
    exit 1
fi
look
[ ${#missing[@]} = 0 ] && exit 0
if [ "$(id -u)" = 0 ] && command -v apt-get >/dev/null; then
    install || { apt-get update </dev/null && install; }
    look
    [ ${#missing[@]} = 0 ] && exit 0
fi
echo "packages: missing: ${missing[*]}"
echo "packages: install them by: sudo apt-get install ${missing[*]}"
exit 1
