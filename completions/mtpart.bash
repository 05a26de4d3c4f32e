# Completion of mtpart in bash: its commands, and then what each word is: the file of a table, a folder, a number or a query.

_mtpart() {
    local word=${COMP_WORDS[COMP_CWORD]} kind=
    COMPREPLY=()
    if [ "$COMP_CWORD" = 1 ]; then
        COMPREPLY=($(compgen -W 'write check rows show select merge trial' -- "$word"))
        return
    fi
    case ${COMP_WORDS[1]}:$COMP_CWORD in
        write:2 | check:2 | rows:2 | show:2 | select:2 | merge:2) kind=file ;;
        write:3 | check:3 | rows:3 | show:3 | select:3) kind=directory ;;
        write:4 | check:4 | merge:3) COMPREPLY=($(compgen -W '1 2 4 8 16 32 64' -- "$word")) ;;
        merge:*) kind=directory ;;
    esac
    if [ -n "$kind" ]; then
        compopt -o filenames 2> /dev/null
        local IFS=$'\n'
        COMPREPLY=($(compgen -A "$kind" -- "$word"))
    fi
}

complete -F _mtpart mtpart
