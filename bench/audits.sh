#!/usr/bin/env bash
# Times and memory of a run that imports, with half of so many searches beside the import and half behind it;
# of the same import alone; and of the audit of what the run wrote. The memory of an audit is to be compared
# with that of the import alone and the size of the record together.
#
#     PROGRAM=/path/to/gobase bash bench/audits.sh 'make 2000 1' 56
#     PROGRAM=/path/to/gobase bash bench/audits.sh 'import games8000' 12 --batch 1
IMPORT=$1 SEARCHES=$2
shift 2
KEPT=$(mktemp -d ./kept.XXXXXX)

# script: the lines of the run.
script() {
    echo "$IMPORT"
    for i in $(seq "$SEARCHES"); do
        [ "$i" -ne $((SEARCHES / 2 + 1)) ] || echo wait
        echo 'search same fixed X'
    done
}

# measured NAME WORDS..: the times and the greatest resident set of the program, with these words.
measured() { /usr/bin/time -f "$1: %e s, user %U s, system %S s, %M KB" $PROGRAM "${@:2}"; }

script >"$KEPT/script"
measured 'the run' "$@" <"$KEPT/script" >"$KEPT/record"
printf '%s\nwait\n' "$IMPORT" | measured 'the import alone' "$@" >/dev/null
echo "the record: $(stat -c %s "$KEPT/record") bytes"
measured 'the audit' audit "$KEPT" "$@" <"$KEPT/script"
rm -r "$KEPT"
