# Completion of fz for bash. The commands are those that the program names in its usage line.
_fz() {
    local word=${COMP_WORDS[COMP_CWORD]} before=${COMP_WORDS[COMP_CWORD-1]} command=${COMP_WORDS[1]} options
    COMPREPLY=()
    if [ "$COMP_CWORD" -eq 1 ]; then
        mapfile -t COMPREPLY < <(compgen -W "$(fz 2> /dev/null | sed -n 's/^usage: fz //; s/,//g; s/ or / /p')" -- "$word")
        return
    fi
    case $command in
        pack | retile) options='--codec --tile --block --sums --workers --memory' ;;
        unpack) options='--workers --memory' ;;
        cut) options='--hdu --box --workers --memory' ;;
        verify) options='--strict --memory' ;;
        patch) options='--hdu --at --memory' ;;
        *) options= ;;
    esac
    # readline takes = for a word of its own
    [ "$before" != = ] || before=${COMP_WORDS[COMP_CWORD-2]}
    case $before in
        --codec) mapfile -t COMPREPLY < <(compgen -W 'rice plio none' -- "${word#=}"); return ;;
        --tile | --block | --workers | --memory | --hdu | --box | --at) return ;;
    esac
    case $word in
        -*) mapfile -t COMPREPLY < <(compgen -W "$options" -- "$word") ;;
        *) [ "$command" = drill ] || { compopt -o filenames 2> /dev/null; mapfile -t COMPREPLY < <(compgen -f -- "$word"); } ;;
    esac
}
complete -F _fz fz
