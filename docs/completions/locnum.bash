# Completion of locnum for bash: to be read by the shell, or to be put where bash-completion looks, under the name locnum.
# tools/option_pages.py makes it.

# what the file of tables that the words name holds, or else the program
_locnum_list() {
    local place file=()
    for ((place = 1; place < COMP_CWORD; place++)); do
        case ${COMP_WORDS[place]} in
        --tables | -t | --messages)
            file=(-t "${COMP_WORDS[place + 1]}")
            [ "${file[1]}" != = ] || file=(-t "${COMP_WORDS[place + 2]}")
            ;;
        esac
    done
    "${COMP_WORDS[0]}" --list "$1" "${file[@]}" 2>/dev/null
}

_locnum() {
    local at=$COMP_CWORD
    local word=${COMP_WORDS[at]} before=${COMP_WORDS[at - 1]} place
    local options='--tables --locale --system --list --style --currency --accounting --cash --unit --width --percent --permille
        --fraction --significant --increment --integer --scale --round --grouping --sign --skeleton --message
        --messages --id --delimiter --csv --field --range --header --zero-terminated --padding --invalid --explain
        --help --version -t -l -d -z -h -V'
    COMPREPLY=()
    # --style=short is three words, the sign one of them
    if [ "$word" = = ]; then
        word=
        before+==
    elif [ "$before" = = ]; then
        before=${COMP_WORDS[at - 2]}=
    fi
    case $before in
    --tables= | --locale= | --system= | --list= | --style= | --currency= | --unit= | --width= | --fraction= | --significant= | --increment= | --integer= | --scale= | --round= | --sign= | --skeleton= | --message= | --messages= | --id= | --delimiter= | --field= | --range= | --padding= | --invalid=) before=${before%=} ;;
    esac
    # behind -- all are numbers
    for ((place = 1; place < at; place++)); do
        [ "${COMP_WORDS[place]}" != -- ] || return 0
    done
    case $before in
    --tables | -t | --messages)
        compopt -o filenames 2>/dev/null
        mapfile -t COMPREPLY < <(compgen -f -- "$word")
        ;;
    -l | --locale) mapfile -t COMPREPLY < <(compgen -W "$(_locnum_list locales)" -- "$word") ;;
    --system) mapfile -t COMPREPLY < <(compgen -W "$(_locnum_list systems)" -- "$word") ;;
    --list) mapfile -t COMPREPLY < <(compgen -W 'locales systems currencies units' -- "$word") ;;
    --style) mapfile -t COMPREPLY < <(compgen -W 'plain short long' -- "$word") ;;
    --currency) mapfile -t COMPREPLY < <(compgen -W "$(_locnum_list currencies)" -- "$word") ;;
    --unit) mapfile -t COMPREPLY < <(compgen -W "$(_locnum_list units)" -- "$word") ;;
    --width) mapfile -t COMPREPLY < <(compgen -W 'short narrow code hidden name long' -- "$word") ;;
    --round) mapfile -t COMPREPLY < <(compgen -W 'half-even half-up half-down half-ceiling half-floor up down ceiling floor' -- "$word") ;;
    --grouping=) mapfile -t COMPREPLY < <(compgen -W 'auto never always min2' -- "$word") ;;
    --sign) mapfile -t COMPREPLY < <(compgen -W 'auto always never except-zero negative' -- "$word") ;;
    --invalid) mapfile -t COMPREPLY < <(compgen -W 'abort fail warn ignore' -- "$word") ;;
    --fraction | --significant | --increment | --integer | --scale | --skeleton | --message | --id | -d | --delimiter | --field | --range | --padding | --header=) ;;
    *) [[ $word != -* || $before = *= ]] || mapfile -t COMPREPLY < <(compgen -W "$options" -- "$word") ;;
    esac
}
complete -F _locnum locnum
