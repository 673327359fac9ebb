#!/bin/bash
# builds of the gate -10, its checks (seeds and edits) $1
while sleep 3; do
    top=$(pgrep -of '[/ ]rt ci') || continue
    for p in $(pstree -p "$top" 2> /dev/null | grep -o '([0-9]*)' | tr -d '()'); do
        a=$(tr '\0' ' ' < /proc/$p/cmdline 2>/dev/null)
        case "$a" in *"crate-name fz_cases"*) n=$(cat /work/base/checknice);; *"rattle build"*) n=-10;; *"rattle check"*) n=$(cat /work/base/checknice);; *) n=-10;; esac
        for t in /proc/"$p"/task/*; do renice -n "$n" -p "${t##*/}" > /dev/null 2>&1; done
    done
done
