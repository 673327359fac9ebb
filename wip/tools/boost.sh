#!/bin/bash
# boost.sh [NICE]: gives all threads of all provers below `rt ci` this nice value (-10), every three seconds. `renice -p` of a process
# reaches only its first thread.
n=${1:--10}
while sleep 3; do
    for top in $(pgrep -f '[/ ]rt ci'); do
        for p in $(pstree -p "$top" 2> /dev/null | grep -o '([0-9]*)' | tr -d '()'); do
            for t in /proc/"$p"/task/*; do renice -n "$n" -p "${t##*/}" > /dev/null 2>&1; done
        done
    done
done
