#!/usr/bin/env bash
# Writes large files of games, each into a folder of its own, into the folder in which it is started.
#
#     bash PATH/TO/bench/large_files.sh
#
# mixed, moves, comments and deep are of 16 MiB, those with `four` behind it of 4 MiB. Those with `load`
# are refused at their first bytes, so that they show what loading takes; those with `read` when they have
# been read (`refused NotGo 4`). `mixedkept` and `moveskept` hold the same games in 63 files, and a file
# behind them that is only loaded. `small` and `large` hold games of nodes without a value.
texts="$(dirname "$0")/texts.awk"

for kind in mixed moves comments deep; do
    mkdir $kind ${kind}four ${kind}load ${kind}read
    awk -v kind=$kind -v limit=16777200 -f "$texts" >$kind/a.sgf
    awk -v kind=$kind -v limit=4194304 -f "$texts" >${kind}four/a.sgf
    sed '1s/^(;/(;]/' $kind/a.sgf >${kind}load/a.sgf
    sed '1s/GM\[1\]/GM[2]/' $kind/a.sgf >${kind}read/a.sgf
done

mkdir setups setupsread
awk 'BEGIN { for (i = 0; i < 4096; i++) value = value "[aa]"
    for (i = 0; i < 1020; i++) print "(;GM[1]FF[4]SZ[19]AB" value ")" }' >setups/a.sgf
sed '1s/GM\[1\]/GM[2]/' setups/a.sgf >setupsread/a.sgf

for kind in mixed moves; do
    mkdir ${kind}kept
    split -n l/63 -d -a 2 --additional-suffix=.sgf $kind/a.sgf ${kind}kept/
    cp ${kind}load/a.sgf ${kind}kept/zz.sgf
done

empty() {
    awk -v nodes="$1" -v games="$2" 'BEGIN { for (i = 0; i < nodes; i++) node = node ";"
        for (i = 0; i < games; i++) print "(" node ")" }'
}
mkdir small large
empty 257 64000 >small/a.sgf
empty 65536 255 >large/a.sgf
