#!/usr/bin/env python3
"""What the program does when something is refused: each allocation, read, write and call of the
folder, one in each run.

    tools/refusals.py PROGRAM

Makes a folder of small games and a script that uses every statement, and runs it whole, in one batch,
in a batch for each file, and with `--serial`. Then for each kind of call it runs the script once for
each such call, in which that one call fails, until a run makes fewer. Each run has to end, with a
status that its kind of call may have. After an allocation or a write that failed what is written has to
be a prefix of the whole output, and the whole where the status is 0; after a read of the script that
failed, nothing. After a call of the folder that failed the run is done; what it answers hangs on what
was read, so that only the lines and the names of the statements are compared.

What the run in one batch wrote is then audited as a record, with the same calls refused: after a call of
the folder that failed the status is that of a folder that could not be read, or the call was none that
the audit needs. Prints how many runs there were and how they ended; the exit status is 0 where all is so.

Beside an import several threads make allocations, in no fixed order, so that the calls of one kind are
not the same ones in each run.

The calls fail by a small library that is loaded before the C library (`LD_PRELOAD`); it is compiled by
`cc` into a temporary folder.
"""
import collections
import os
import subprocess
import sys
import tempfile

SHIM = r"""
#define _GNU_SOURCE
#include <dirent.h>
#include <errno.h>
#include <fcntl.h>
#include <stdarg.h>
#include <stdatomic.h>
#include <stdlib.h>
#include <string.h>
#include <sys/syscall.h>
#include <unistd.h>

extern void *__libc_malloc(size_t);
extern void *__libc_realloc(void *, size_t);

static atomic_long made;

/* Whether this call of a kind is the one that fails. A file of a given name tells that it came. */
static int fails(const char *kind) {
    const char *wanted = getenv("REFUSE_KIND");
    if (wanted == NULL || strcmp(wanted, kind) != 0) return 0;
    if (atomic_fetch_add(&made, 1) + 1 != atol(getenv("REFUSE_AT"))) return 0;
    syscall(SYS_close, syscall(SYS_openat, AT_FDCWD, getenv("REFUSE_TOLD"), O_CREAT | O_WRONLY, 0600));
    return 1;
}

static int refused(int error) { errno = error; return -1; }

void *malloc(size_t n) { return fails("allocation") ? (errno = ENOMEM, NULL) : __libc_malloc(n); }
void *realloc(void *p, size_t n) {
    return fails("allocation") ? (errno = ENOMEM, NULL) : __libc_realloc(p, n);
}
ssize_t read(int fd, void *to, size_t n) {
    return fails(fd == 0 ? "script" : "folder") ? refused(EIO) : syscall(SYS_read, fd, to, n);
}
ssize_t write(int fd, const void *from, size_t n) {
    return fd == 1 && fails("write") ? refused(EIO) : syscall(SYS_write, fd, from, n);
}
int open(const char *path, int flags, ...) {
    va_list more;
    va_start(more, flags);
    mode_t mode = va_arg(more, mode_t);
    va_end(more);
    return fails("folder") ? refused(EIO) : syscall(SYS_openat, AT_FDCWD, path, flags, mode);
}
int openat(int at, const char *path, int flags, ...) {
    va_list more;
    va_start(more, flags);
    mode_t mode = va_arg(more, mode_t);
    va_end(more);
    return fails("folder") ? refused(EIO) : syscall(SYS_openat, at, path, flags, mode);
}
ssize_t getdents64(int fd, void *to, size_t n) {
    return fails("folder") ? refused(EIO) : syscall(SYS_getdents64, fd, to, n);
}
"""

GAMES = {
    "a.sgf": "(;GM[1]FF[4]SZ[5]PB[Ann]PW[Bo]RE[B+R];B[cc];W[bc];B[cb])",
    "b.sgf": "(;GM[1]FF[4]SZ[9]PB[Bo]PW[Ann]RE[W+2];B[cc](;W[bc];B[cb])(;W[gg];B[gc];W[cg]))",
    "c.sgf": "(;GM[1]FF[4]SZ[5];B[zz])",
}

SCRIPT = """import d
until 3
search same X
together
search same fixed O
search main XO
end
kept X
watch x same X where player "Ann"
watch x O
signature ************
players
doubles
opening 5 5 2 1
game 1
report
retire labels
wait
make 3 1
wait
watched x
watched y
kept same fixed X
import e
search X where player "Ann"
"""

# The statuses that a run, and an audit, may have in which a call of this kind failed.
STATUSES = {"allocation": {0, 5}, "script": {3}, "folder": {0}, "write": {4}}
AUDIT_STATUSES = {**STATUSES, "folder": {0, 6}}
AUDIT = ["audit", "r"]


def run(program, folder, words, **told):
    """The status and the output of a run; it has to end within a minute."""
    done = subprocess.run([program, *words], input=SCRIPT.encode(), cwd=folder, timeout=60,
                          env={**os.environ, **told}, stdout=subprocess.PIPE, stderr=subprocess.DEVNULL)
    return done.returncode, done.stdout


def without_reports(output):
    """The lines in which no report of an import stands, nor what hangs on the files that it read."""
    return [line.split(b" ")[:2] for line in output.split(b"\n") if b" imported " not in line
            and line.split(b" ")[0].isdigit()]


def is_told(words, kind, status, output, whole):
    is_audit = words == AUDIT
    if status not in (AUDIT_STATUSES if is_audit else STATUSES)[kind]:
        return False
    if kind == "folder" and not is_audit:
        return without_reports(output) == without_reports(whole)
    if kind == "script" or status == 6:
        return output == b""
    return output == whole if status == 0 else whole.startswith(output)


def try_each(program, folder, shim, kind, words, whole):
    """How the runs ended, one for each call of this kind; None where one isn't as it has to be."""
    ended, at = collections.Counter(), 0
    told = os.path.join(folder, "told")
    while True:
        at += 1
        status, output = run(program, folder, words, LD_PRELOAD=shim, REFUSE_KIND=kind,
                             REFUSE_AT=str(at), REFUSE_TOLD=told)
        if not os.path.exists(told):
            return ended
        os.remove(told)
        if not is_told(words, kind, status, output, whole):
            print("%s %d refused: status %d after\n%s" % (kind, at, status, output.decode()))
            return None
        ended[status] += 1


def try_kinds(program, folder, shim, words, whole):
    """Whether each run with these words, whose whole output is this, is as it has to be."""
    good = True
    for kind in STATUSES:
        ended = try_each(program, folder, shim, kind, words, whole)
        good = good and ended is not None
        if ended is not None:
            print("%s %s: %d runs, by status %s" % (" ".join(words) or "no words", kind,
                  sum(ended.values()), dict(sorted(ended.items()))))
    return good


def keep_record(folder, record):
    os.mkdir(os.path.join(folder, "r"))
    with open(os.path.join(folder, "r", "record"), "wb") as file:
        file.write(record)


def main():
    program = os.path.abspath(sys.argv[1])
    with tempfile.TemporaryDirectory() as folder:
        shim = os.path.join(folder, "refusals.so")
        subprocess.run(["cc", "-shared", "-fPIC", "-O1", "-x", "c", "-", "-o", shim],
                       input=SHIM.encode(), check=True)
        os.mkdir(os.path.join(folder, "d"))
        for name, text in GAMES.items():
            with open(os.path.join(folder, "d", name), "w") as file:
                file.write(text)
        keep_record(folder, run(program, folder, [])[1])
        good = True
        for words in ([], ["--batch", "1"], ["--serial"], AUDIT):
            status, whole = run(program, folder, words)
            if status != 0 or words == AUDIT and whole != b"audit lawful\n":
                sys.exit("the whole run ended with status %d and %r" % (status, whole))
            good = try_kinds(program, folder, shim, words, whole) and good
        sys.exit(0 if good else 1)


main()
