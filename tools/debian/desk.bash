# What bash completes after `desk`. Commands, options and kinds of files are those of the program's own help.

# The first word of each line of a part of a help, which begins with a heading.
_desk_words() {
    "$1" "${@:3}" 2>/dev/null | sed -n "/^$2:\$/,/^\$/s/^  *\\(-[a-z], \\)\\{0,1\\}\\([-<>A-Za-z]*\\).*/\\2/p"
}

# What an option or a place of a command takes, if its help names all of it.
_desk_values() {
    case $3 in
    --audience) echo public jury ;;
    --format) "$1" "$2" --help | grep '^ *--format ' | grep -oE ' as [a-z]+' | cut -d ' ' -f 3 ;;
    KIND) "$1" "$2" --help | sed -n 's/^ *<KIND> .*holds: //p' | tr -s ', ' '\n' | grep -vxE 'or|as|JSON' ;;
    esac
}

_desk() {
    local program=$1 word=$2 before=$3 command=${COMP_WORDS[1]} values
    COMPREPLY=()
    if [ "$COMP_CWORD" = 1 ]; then
        mapfile -t COMPREPLY < <(compgen -W "$(_desk_words "$program" Commands help)" -- "$word")
        return
    fi
    [ "$command $COMP_CWORD" != "import 3" ] || before=KIND
    values=$(_desk_values "$program" "$command" "$before" 2>/dev/null)
    if [ "$command" = help ] && [ "$COMP_CWORD" = 2 ]; then
        values=$(_desk_words "$program" Commands help)
    elif [[ -z $values && $word == -* ]]; then
        values=$(_desk_words "$program" Options "$command" --help)
    fi
    if [ -n "$values" ]; then
        mapfile -t COMPREPLY < <(compgen -W "$values" -- "$word")
    else
        mapfile -t COMPREPLY < <(compgen -f -- "$word")
    fi
}

complete -o filenames -F _desk desk
