#!/usr/bin/env bash
# What a watched search takes for one file more, in bases of so many made games, what it takes when it is told
# again, and what the same search takes where that file is all that there is: in instructions of the search
# alone, without the text that is printed.
#
#     PROGRAM=/path/to/gobase bash bench/watched.sh 8000 100000
PATTERN='....../....../.....O/...X../....../..X...'
ONE=$(mktemp -d ./one.XXXXXX)
printf 'make 1 5\nwait\ngame 0\n' | $PROGRAM | tail -1 > "$ONE/a.sgf"

# The instructions of each search of a script of these lines, in order.
searches() {
    printf '%s\n' "$@" | valgrind --tool=callgrind --callgrind-out-file="$ONE/out" \
        --toggle-collect='session_core::watch::Watch::advance' \
        --dump-after='session_core::watch::Watch::advance' $PROGRAM --serial >"$ONE/answers" 2>&1
    for dump in $(ls "$ONE" | grep '^out\.' | sort -t. -k2 -n); do
        sed -n 's/^summary: *\([0-9]*\).*/\1/p' "$ONE/$dump"
    done
    rm -f "$ONE"/out*
}

echo "the file alone:" $(searches "import $ONE" wait "watch w $PATTERN" | head -1)
for games in "$@"; do
    echo "$games games; all of them, one file more, nothing new:" \
        $(searches "make $games 1" wait "watch w $PATTERN" "import $ONE" wait 'watched w' 'watched w' | head -3)
done
rm -r "$ONE"
