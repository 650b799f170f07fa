# Completion of hfsx for bash: source it, or put it into the folder bash-completion/completions as hfsx.
_hfsx() {
    local now=${COMP_WORDS[COMP_CWORD]}
    COMPREPLY=()
    if [ "$COMP_CWORD" = 1 ]; then
        mapfile -t COMPREPLY < <(compgen -W "format run check repair gen sessions" -- "$now")
    elif [ "$COMP_CWORD" = 2 ] && [ "${COMP_WORDS[1]}" != gen ]; then
        compopt -o filenames 2>/dev/null
        mapfile -t COMPREPLY < <(compgen -f -- "$now")
    fi
}
complete -F _hfsx hfsx
