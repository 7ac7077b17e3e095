# Writes games, one a line, up to `limit` bytes in all. `kind` is mixed, moves, comments or deep.
function place(p) { return letter[p % 19] letter[int(p / 19)] }

# 200 moves that play no point twice.
function moves(every,    i, text) {
    for (i = 0; i < 200; i++) {
        text = text ";" (i % 2 ? "W" : "B") "[" place((step * i + first) % 361) "]"
        if (every && i % every == every - 1) text = text "C[" remark "]"
    }
    return text
}

# 10 nodes with a comment of 8,060 bytes each.
function comments(    i, text) {
    for (i = 0; i < 10; i++) text = text ";C[" long "]"
    return text
}

# 1,000 moves, each in brackets of its own, and one variation beside each.
function deep(    i, text) {
    for (i = 0; i < 1000; i++) text = text "(;B[" place((step * i + first) % 361) "]"
    for (i = 0; i < 1000; i++) text = text ")(;W[" place(i % 361) "])"
    return text
}

BEGIN {
    for (c = 0; c < 19; c++) letter[c] = sprintf("%c", 97 + c)
    remark = "A comment on this move, of some sixty bytes, now and then."
    for (i = 0; i < 130; i++) long = long "A long comment, of plain words, without an end; it goes on. .."
    for (game = 0; ; game++) {
        step = 20 + game % 17
        first = game * 7 % 361
        line = "(;GM[1]FF[4]SZ[19]"
        told = "PB[Player " game % 97 "]PW[Player " game % 89 "]EV[Event " game % 31 "]DT[2001-02-03]"
        if (kind == "mixed") line = line told moves(40)
        if (kind == "moves") line = line moves(0)
        if (kind == "comments") line = line comments()
        if (kind == "deep") line = line deep()
        line = line ")"
        size += length(line) + 1
        if (size > limit) exit
        print line
    }
}
