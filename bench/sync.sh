#!/bin/sh
# What surviving a power cut costs: `serve --journal` and `serve --journal --sync` with 1 and 16 recorders at once, whose
# blocks of 32 KiB come from bench/client.c over loopback, into a folder on the disk of TMPDIR; beside the same bytes by
# plain calls into two files, each synced after 1, 8 and 16 blocks (bench/sync.c), and in an SQLite database (WAL,
# synchronous FULL) with as many blocks a transaction. A line has MB/s of all blocks together. The program is the first
# argument, or the one of this repository. Needs cc, awk, python3 with sqlite3, and GNU time for the rest.

here=$(dirname -- "$(readlink -f -- "$0")") || exit
. "$here/common.sh"
cc -O2 -o "$work/sync" "$here/sync.c" || exit

# A line: what was measured, MB/s, and more.
line() {
    printf '%-48s %8.1f MB/s%s\n' "$1" "$2" "$3"
}

# $1 recorders at once with $2 blocks each, a server with the options after that.
served() {
    recorders=$1
    blocks=$2
    shift 2
    serve "$recorders" --recorders 256 --journal "$@"
    taken=$("$work/client" $port take "$blocks" 32768 "$recorders") || exit
    wait $server || exit
    speed=$(awk -v blocks=$((recorders * blocks)) -v seconds="${taken% *}" 'BEGIN { print blocks * 32768 / seconds / 1e6 }')
    line "serve --journal${*:+ $*}, recorders: $recorders" "$speed" "$(used server)"
}

# $1 blocks in an SQLite database, $2 a transaction.
in_sqlite() {
    rm -f "$work/takes.db"*
    python3 - "$work/takes.db" "$1" "$2" <<'END'
import sqlite3, sys, time
path, blocks, a_commit = sys.argv[1], int(sys.argv[2]), int(sys.argv[3])
base = sqlite3.connect(path, isolation_level=None)
base.execute("pragma journal_mode = wal")
base.execute("pragma synchronous = full")
base.execute("create table blocks (number integer primary key, samples blob)")
samples = bytes(32768)
start = time.monotonic()
for first in range(0, blocks, a_commit):
    base.execute("begin")
    base.executemany("insert into blocks values (?, ?)", ((n, samples) for n in range(first, first + a_commit)))
    base.execute("commit")
print(f"{blocks * 32768 / (time.monotonic() - start) / 1e6:.1f}")
END
}

printf 'a sync takes %s ms\n' "$("$work/sync" "$work")"
for a_commit in 1 8 16; do
    line "two files, a sync of each after $a_commit blocks" "$("$work/sync" "$work" $((256 * a_commit)) $a_commit)"
done
for a_commit in 1 8 16; do
    line "SQLite, $a_commit blocks a transaction" "$(in_sqlite $((256 * a_commit)) $a_commit)"
done
served 1 8192
served 16 512
served 1 512 --sync
served 16 64 --sync
