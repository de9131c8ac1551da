#!/bin/sh
# How fast `serve --recorders` takes takes from 1, 16 and 200 recorders at once, over loopback into a folder on the disk
# of TMPDIR: blocks of 32 KiB and of 1 KiB from bench/client.c, which keeps 16 messages of each take in flight. A line
# has MB/s of all together, the ratio to SHA-256 alone over bodies of that length (the server's own, in the same run),
# and how fast the slowest recorder was, where the mean of all is 1. Last the same into a folder whose every write
# takes 5 ms more, and how long a peer that only asks waits for an answer, meanwhile and alone. The
# program is the first argument, or the one of this repository. Needs cc, awk, openssl, python3, and GNU time for the
# rest.

here=$(dirname -- "$(readlink -f -- "$0")") || exit
. "$here/common.sh"

# $1 recorders at once with $2 blocks each of $3 bytes, beside SHA-256's MB/s $4.
many() {
    serve "$1" --recorders 256
    taken=$("$work/client" $port take "$2" "$3" "$1") || exit
    wait $server || exit
    report "$1 recorders, $2 blocks of $3 bytes each" $(($1 * $2 * $3)) "${taken% *}" "$4" \
        ", slowest ${taken#* }$(used server)"
}

# A library that makes each write to a file take 5 ms more.
slow_writes() {
    cat >"$work/slow.c" <<'END'
#include <sys/stat.h>
#include <sys/syscall.h>
#include <time.h>
#include <unistd.h>

ssize_t write(int file, const void *from, size_t most) {
    struct stat found;
    if (!fstat(file, &found) && S_ISREG(found.st_mode)) nanosleep(&(struct timespec){.tv_nsec = 5000000}, 0);
    return syscall(SYS_write, file, from, most);
}
END
    cc -shared -fPIC -O1 -o "$work/slow.so" "$work/slow.c" && slow=$work/slow.so
}

# How long a peer that asks waits for its answer, over a hundred asks.
ask() {
    python3 - $port <<'END'
import socket, sys, time
asked, length = bytes.fromhex("0800000006027a7a00000000"), 17
with socket.create_connection(("127.0.0.1", int(sys.argv[1]))) as peer:
    waited = []
    for _ in range(100):
        begun = time.monotonic()
        peer.sendall(asked)
        heard = b""
        while len(heard) < length:
            heard += peer.recv(length - len(heard)) or sys.exit("the server ends")
        waited.append(1000 * (time.monotonic() - begun))
        time.sleep(0.01)
waited.sort()
print(f"an answer takes {waited[50]:.1f} ms, at most {waited[-1]:.1f} ms")
END
}

# 16 recorders at once into a slow folder, and a peer that asks.
slow_folder() {
    slow_writes || exit
    serve 18 --recorders 256
    printf 'a folder whose writes take 5 ms more, nobody else there: %s\n' "$(ask)"
    "$work/client" $port take 64 32768 16 >"$work/taken" &
    recorders=$!
    sleep 0.5
    printf 'the same beside 16 recorders: %s\n' "$(ask)"
    wait $recorders || exit
    wait $server || exit
    read -r taken slowest <"$work/taken"
    report '16 recorders, 64 blocks of 32768 bytes each' $((16 * 64 * 32768)) "$taken" "$long_bodies" \
        ", slowest $slowest$(used server)"
}

report_digests
many 1 16384 32768 "$long_bodies"
many 16 1024 32768 "$long_bodies"
many 200 82 32768 "$long_bodies"
many 1 65536 1024 "$short_bodies"
many 16 4096 1024 "$short_bodies"
many 200 320 1024 "$short_bodies"
slow_folder
