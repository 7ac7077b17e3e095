#!/usr/bin/env bash
# Times and memory of imports by batches of 1, 64 and 512 files, on one processor and on all.
#
#     PROGRAM=/path/to/gobase bash bench/imports.sh FOLDER
for batch in 1 64 512; do
    for processors in 'taskset -c 0' ''; do
        printf 'import %s\nwait\n' "$1" |
            /usr/bin/time -f "batch $batch $processors: %e s, user %U s, system %S s, %M KB" $processors $PROGRAM --batch $batch >/dev/null
    done
done
