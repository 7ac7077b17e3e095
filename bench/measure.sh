# Words for the other files of this folder: `. bench/measure.sh`, with PROGRAM set to the native program.
# A FOLDER is one of games, and a STATEMENT a line of a script, or nothing.

# The script that imports a folder, and answers a statement.
script() { printf 'import %s\nwait\n' "$1"; [ -z "$2" ] || printf '%s\n' "$2"; }

# count FOLDER [STATEMENT]: the instructions of that script.
count() { script "$@" | valgrind --tool=callgrind --callgrind-out-file=/dev/null $PROGRAM 2>&1 >/dev/null | awk '/Collected/ { print $NF }'; }

# resident FOLDER [STATEMENT]: the greatest resident set, and the times.
resident() { script "$@" | /usr/bin/time -f '%M KB, user %U s, system %S s' $PROGRAM >/dev/null; }

# heap FOLDER: the peak of the heap while the folder is imported, in bytes.
heap() {
    script "$1" | valgrind --tool=massif --peak-inaccuracy=0.0 --massif-out-file="$1.heap" $PROGRAM >/dev/null 2>&1
    grep mem_heap_B "$1.heap" | sort -t= -k2 -n | tail -1
}

# statements FOLDER STATEMENT NUMBER: the script that imports a folder and has a statement so often.
statements() { printf 'import %s\nwait\n' "$1"; for i in $(seq "$3"); do printf '%s\n' "$2"; done; }

# counts FOLDER STATEMENT NUMBER: the instructions of that script.
counts() { statements "$@" | valgrind --tool=callgrind --callgrind-out-file=/dev/null $PROGRAM 2>&1 >/dev/null | awk '/Collected/ { print $NF }'; }

# each FOLDER STATEMENT: what one statement takes, by 21 and by one.
each() { echo $((($(counts "$1" "$2" 21) - $(counts "$1" "$2" 1)) / 20)); }
