# How scripts answer --help, and what they take: they source this file, and call `takes` before anything else.

# takes MOST OPTION.. -- WORD..: with --help among the words it prints the comment at the head of the script, and ends. It
# rejects an option that isn't one of these, and more than MOST other words; options' values count as such. Status 2.
takes() {
    local most=$1 options=' ' others=0 word
    for ((; $# > 1; )); do
        shift
        [ "$1" != -- ] || break
        options+="$1 "
    done
    shift
    for word; do
        if [ "$word" = --help ]; then
            sed -n '2,${ /^#/!q; s/^# \{0,1\}//p; }' "$0"
            exit 0
        elif [[ $word != -* ]]; then
            others=$((others + 1))
        elif [[ $options != *" $word "* ]]; then
            others=$((most + 1))
        fi
        if [ "$others" -gt "$most" ]; then
            echo "$0: $word: not expected; --help says what is" >&2
            exit 2
        fi
    done
}
