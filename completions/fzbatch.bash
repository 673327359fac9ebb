# Completion of fzbatch for bash.
_fzbatch() {
    local word=${COMP_WORDS[COMP_CWORD]} before=${COMP_WORDS[COMP_CWORD-1]} command=${COMP_WORDS[1]} options
    local every='--jobs --memory --fz --time-limit --engine --sshlogin --sshloginfile --scheduler --all --allow-empty --quiet --log' some='--include --exclude --from-list --dry-run --tell-idle'
    COMPREPLY=()
    if [ "$COMP_CWORD" -eq 1 ]; then
        mapfile -t COMPREPLY < <(compgen -W 'pack verify compare restore adopt retile status missing forget collect share rebuild report look' -- "$word")
        return
    fi
    case $command in
        pack) options="$every $some --codec --tile --block --workers --no-sums --compare --update --retry --accept-wrong-sums --skip-links --skip-compressed --skip-nothing --beside --delete --manifest" ;;
        verify) options="$every $some --sha256-only --manifest" ;;
        compare) options="$every $some --without-plain --manifest" ;;
        restore) options="$every $some --beside --delete --manifest" ;;
        retile) options='--jobs --memory --time-limit --fz --all --quiet --log --manifest --codec --tile --block --workers --sums' ;;
        adopt) options="$every --manifest --reread --update --moved --skip-links --skip-nothing" ;;
        status) options='--all --json --without-plain --manifest' ;;
        missing) options='--null --without-plain --manifest' ;;
        share) options='--fz' ;;
        rebuild) options='--jobs --memory --time-limit --fz --all --accept-wrong-sums --ignore-copy --again' ;;
        forget) options='--name --manifest' ;;
        collect) options='--drop --all' ;;
        report) options='--out --without-plain --manifest' ;;
        look) options='--hdu --box --size --stretch --exact --no-grid --fz --out' ;;
        *) options= ;;
    esac
    [ "$before" != = ] || before=${COMP_WORDS[COMP_CWORD-2]}
    case $before in
        --codec) mapfile -t COMPREPLY < <(compgen -W 'rice plio none' -- "${word#=}"); return ;;
        --engine) mapfile -t COMPREPLY < <(compgen -W 'local parallel slurm dask' -- "${word#=}"); return ;;
        --manifest) mapfile -t COMPREPLY < <(compgen -f -- "$word"); return ;;
        --jobs | --memory | --time-limit | --sshlogin | --scheduler | --include | --exclude | --tile | --block | --workers | --name | --reread | --hdu | --box | --size) return ;;
    esac
    compopt -o filenames 2> /dev/null
    case $word in
        -*) mapfile -t COMPREPLY < <(compgen -W "$options" -- "$word") ;;
        *) if [ "$command" = look ] || [[ $before = --fz || $before = --out || $before = -o || $before = --sshloginfile || $before = --from-list || $before = --log ]] || [[ $command = verify || $command = compare || $command = restore ]] && [ "$COMP_CWORD" -gt 2 ]; then
            mapfile -t COMPREPLY < <(compgen -f -- "$word")
        else
            mapfile -t COMPREPLY < <(compgen -d -- "$word")
        fi ;;
    esac
}
complete -F _fzbatch fzbatch
