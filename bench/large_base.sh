#!/usr/bin/env bash
# A base of N made games and six statements over it: the time at which the first line of each text comes.
#
#     PROGRAM=/path/to/gobase bash bench/large_base.sh N [WORDS OF THE PROGRAM]
games=$1
shift
$PROGRAM "$@" <<END | grep --line-buffered '^[0-9]' | while read -r line; do echo "$EPOCHREALTIME $line"; done
make $games 1
wait
search at 0 0 ..X.../....../....../....../....../......
search ...X../.X..../....../....../....../......
search XO./.X./O..
kept XO./.X./O..
search same fixed moves 1 1 at 2 4 X
players
END
