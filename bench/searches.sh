#!/usr/bin/env bash
# For each folder what its import takes, and then what each statement takes beyond that, in instructions.
#
#     PROGRAM=/path/to/gobase bash bench/searches.sh FOLDER..
. "$(dirname "$0")/measure.sh"

for games in "$@"; do
    import=$(count "$games")
    echo "$games $import"
    for statement in 'search at 0 0 ....../....../.....O/...X../....../..X...' 'search .X./XO./.X*' \
        'search ....../....../.....O/...X../....../..X...' 'search *X*/XOX/*X*' 'search ...../..X../...../.....' \
        'search XO/OX' 'search xXo/oOx/xXo' 'search .X./XO./.X* where player "Player 5"' \
        'search at 0 0 ***.../***.../**...O/...X../....../..X...' 'search ***.../***.../**...O/...X../....../..X...' \
        'kept .X./XO./.X*' 'kept ....../....../.....O/...X../....../..X...' \
        'kept at 0 0 ....../....../.....O/...X../....../..X...' 'kept *X*/XOX/*X*' 'kept ...../..X../...../.....' \
        'kept XO/OX'; do
        echo "$statement" $(($(count "$games" "$statement") - import))
    done
done
