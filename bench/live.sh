#!/bin/sh
# What live recorders cost, and how soon they hear: 1, 8, 50 and 200 recorders of 48 kHz stereo at 24 bits each, and 8,
# 50 and 200 that fill a link of 1 Gbit/s together, send blocks of 32 KiB from bench/client.c at that pace for so many
# seconds ($2, 15 where it isn't given) to `serve --recorders 256 --journal`, over loopback into a folder on the disk of
# TMPDIR. A line has the server's processor microseconds a block, and how many milliseconds a verdict took: half of them,
# 99 of 100, and all took no more. Beside it a server that makes the same calls and nothing else (bench/calls.c). Last
# one of these recorders while another one closes a take of 800 MB. The program is the first argument, or the one of this
# repository. Needs cc, awk and GNU time.

here=$(dirname -- "$(readlink -f -- "$0")") || exit
. "$here/common.sh"
cc -O2 -o "$work/calls" "$here/calls.c" || exit
time=${2:-15}

# A line of what the server $1 used, and what the client printed: $2 recorders with $3 bytes a second and $4 blocks each.
line() {
    awk -v what="$1, $2 recorders of $3 bytes/s" -v blocks=$(($2 * $4)) '
        FNR == NR { processor = $1 + $4; next }
        { printf "%-44s %6.1f us a block, verdicts after %6.2f %7.2f %7.2f ms\n", what, 1e6 * processor / blocks, $3, $4, $5 }
    ' "$work/$1.used" "$work/printed"
}

# $1 recorders of $2 bytes a second, with both servers.
live() {
    blocks=$(($2 * time / 32768))
    serve "$1" --recorders 256 --journal
    "$work/client" $port live "$blocks" 32768 "$1" "$2" >"$work/printed" || exit
    wait $server || exit
    line server "$1" "$2" "$blocks"
    next_port
    rm -rf "$work/takes" && mkdir "$work/takes" || exit
    : >"$work/lines"
    noted calls "$work/calls" $port "$work/takes" "$1" >"$work/lines" &
    server=$!
    while [ ! -s "$work/lines" ] && kill -0 $server 2>/dev/null; do sleep 0.05; done
    "$work/client" $port live "$blocks" 32768 "$1" "$2" >"$work/printed" || exit
    wait $server || exit
    line calls "$1" "$2" "$blocks"
}

# A recorder of 48 kHz, stereo, 24 bits, beside another that sends 800 MB at 115 MB/s and closes its take.
closing() {
    serve 2 --recorders 256 --journal
    "$work/client" $port long 24414 32768 1 115000000 >"$work/long" &
    long=$!
    "$work/client" $port live 100 32768 1 288000 >"$work/printed" || exit
    wait $long && wait $server || exit
    awk '{ printf "beside a take of 800 MB that closes: verdicts after %.2f %.2f %.2f ms\n", $3, $4, $5 }' "$work/printed"
}

for recorders in 1 8 50 200; do live $recorders 288000; done
for recorders in 8 50 200; do live $recorders $((115000000 / recorders)); done
closing
