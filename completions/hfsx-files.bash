# Completion of hfsx-files for bash: source it, or put it into the folder bash-completion/completions as hfsx-files.
_hfsx_files() {
    local now=${COMP_WORDS[COMP_CWORD]} before=${COMP_WORDS[COMP_CWORD-1]} verb=${COMP_WORDS[1]}
    COMPREPLY=()
    if [ "$COMP_CWORD" = 1 ]; then
        mapfile -t COMPREPLY < <(compgen -W "put get ls cat stat salvage explain --help --version" -- "$now")
        return
    fi
    case $before in
        --size) mapfile -t COMPREPLY < <(compgen -W "auto" -- "$now"); return ;;
        --date) mapfile -t COMPREPLY < <(compgen -W "keep" -- "$now"); return ;;
        --to) return ;;
    esac
    case $now in
        -*)
            local words
            case $verb in
                put) words="--to --size --date --over --verbose -" ;;
                get) words="--over --verbose -" ;;
                ls) words="-l -R -lR" ;;
                salvage | explain) words="--json" ;;
                *) words="" ;;
            esac
            mapfile -t COMPREPLY < <(compgen -W "$words" -- "$now")
            ;;
        *)
            compopt -o filenames 2>/dev/null
            mapfile -t COMPREPLY < <(compgen -f -- "$now")
            ;;
    esac
}
complete -F _hfsx_files hfsx-files
