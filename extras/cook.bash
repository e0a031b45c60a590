# Completion of cook's words for bash.

# The names that a command takes, in order.
_cook_names() {
    case $1 in
        pack) echo folder package ;;
        restore) echo package folder ;;
    esac
}

_cook() {
    local word=${COMP_WORDS[COMP_CWORD]} names
    COMPREPLY=()
    if ((COMP_CWORD == 1)); then
        mapfile -t COMPREPLY < <(compgen -W 'pack restore' -- "$word")
        return
    fi
    read -ra names < <(_cook_names "${COMP_WORDS[1]}")
    case ${names[COMP_CWORD - 2]} in
        folder) mapfile -t COMPREPLY < <(compgen -d -- "$word") ;;
        package) mapfile -t COMPREPLY < <(compgen -f -- "$word") ;;
        *) return ;;
    esac
    compopt -o filenames 2> /dev/null
}

complete -F _cook cook
