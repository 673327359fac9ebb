# Completion of fzfits for bash.
_fzfits() {
    local word=${COMP_WORDS[COMP_CWORD]} before=${COMP_WORDS[COMP_CWORD-1]} command=${COMP_WORDS[1]} options
    COMPREPLY=()
    if [ "$COMP_CWORD" -eq 1 ]; then
        mapfile -t COMPREPLY < <(compgen -W 'list pack unpack verify cut why mend plan header look --version --help' -- "$word")
        return
    fi
    case $command in
        pack) options='--codec --tile --block --no-sums --delete --out --folder --quiet --workers --memory' ;;
        unpack) options='--out --folder --quiet --workers --memory' ;;
        verify) options='--no-images --strict --verbose --quiet' ;;
        cut) options='--quiet --workers --memory' ;;
        why) options='--pack' ;;
        mend) options='--header-fill --data-fill --pad --trailing --part-hdu --zsimple --sums' ;;
        header) options='--hdu' ;;
        look) options='--hdu --box --size --stretch --exact --no-grid --fz --out' ;;
        *) options= ;;
    esac
    # readline takes = for a word of its own
    [ "$before" != = ] || before=${COMP_WORDS[COMP_CWORD-2]}
    case $before in
        --codec) mapfile -t COMPREPLY < <(compgen -W 'rice plio none' -- "${word#=}"); return ;;
        --folder) compopt -o filenames 2> /dev/null; mapfile -t COMPREPLY < <(compgen -d -- "${word#=}"); return ;;
        --tile | --block | --workers | --memory | --hdu | --box | --size) return ;;
    esac
    case $word in
        -*) mapfile -t COMPREPLY < <(compgen -W "$options --help" -- "$word") ;;
        *) compopt -o filenames 2> /dev/null; mapfile -t COMPREPLY < <(compgen -f -- "$word") ;;
    esac
}
complete -F _fzfits fzfits
