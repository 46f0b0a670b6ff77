# Completion of command lines of drc in bash: commands, options that aren't there yet, and their values. The words are those of `drc help`
# and `drc help COMMAND`, as the program that is completed has them. ./install puts this where bash-completion looks for it.
_drc() { # PROGRAM WORD BEFORE
    local command=${COMP_WORDS[1]} line=" ${COMP_WORDS[*]:0:COMP_CWORD} " all text words= one
    all=$("$1" help 2>/dev/null)
    if [ "$COMP_CWORD" = 1 ]; then
        words=$(sed -n 's/^  \([a-z]*\) .*/\1/p' <<<"$all")
    elif [ "$COMP_CWORD" = 2 ] && [ "$command" = help ]; then
        words=$(sed -n -e '/^  \(help\|version\) /d' -e 's/^  \([a-z]*\) .*/\1/p' <<<"$all")
    elif [[ $command =~ ^[a-z]+$ ]]; then
        text=$("$1" help "$command" 2>/dev/null)
        [[ $line != *" --restore "* ]] || text=${text#*--restore} # the help of that form
        case $3 in
            --[a-z]*) words=$(sed -n "s/^.*$3 \([a-z0-9]* | [a-z0-9 |]*\).*/\1/p" <<<"$text" 2>/dev/null | head -n 1 | tr -d '|') ;;
            gen) words=$(sed -n 's/^  KIND  *//p' <<<"$text" | sed 's/,\| or//g') ;;
        esac
        if [ -z "$words" ]; then
            [ "$COMP_CWORD" != 2 ] || words=$(sed -n "s/^  $command \([a-z]*\) .*/\1/p" <<<"$all")
            for one in $(grep -o -- '--[a-z-]*' <<<"$text"); do
                [[ $line == *" $one "* ]] || words+=" $one"
            done
        fi
    fi
    mapfile -t COMPREPLY < <(compgen -W "$words" -- "$2" | sort -u)
}
complete -o default -F _drc drc
