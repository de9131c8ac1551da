#!/bin/sh
# What operators cost recorders: how fast `serve --recorders` takes takes from 16 recorders at once, as bench/many.sh
# measures it, first with nobody at its `--status`, then while ApacheBench asks for /takes.json and for /metrics as fast
# as it is answered, over as many connections as operators have places. Each is the best of three. A line has MB/s of
# all recorders together, the ratio to SHA-256 alone, how fast the slowest one was, and how many responses there were in
# a second. The program is the first argument, or the one of this repository. Needs ab (apache2-utils), cc, awk,
# openssl, and GNU time for the rest.

here=$(dirname -- "$(readlink -f -- "$0")") || exit
. "$here/common.sh"
command -v ab >/dev/null || { echo 'ab is missing: apt-get install apache2-utils' >&2; exit 1; }
recorders=16
blocks=2048
size=32768

# Takes of all recorders, while operators ask for $1, if it is given: seconds, the slowest one, responses a second.
once() {
    status=$((33000 + ($$ + 977 * tries) % 12000))
    # One exchange more than there are recorders, so that the server stays until operators have gone.
    serve $((recorders + 1)) --recorders 256 --status 127.0.0.1:$status
    if [ -n "$1" ]; then
        noted ab ab -q -l -r -t 3600 -n 2000000 -c 4 "http://127.0.0.1:$status$1" >"$work/asked" 2>&1 &
        asking=$!
        sleep 0.5
    fi
    taken=$("$work/client" $port take "$blocks" "$size" "$recorders") || exit
    responses=0
    if [ -n "$1" ]; then
        kill -INT "$(cat "$work/ab.pid")"
        wait $asking
        responses=$(awk '/^Requests per second/ { print $4 }' "$work/asked")
        awk '/^Failed requests|^Non-2xx/ && $NF > 0 { print "responses failed: " $0 }' "$work/asked" >&2
    fi
    kill "$(cat "$work/server.pid")"
    wait $server
    echo "$taken ${responses:-none}"
}

# The best of three with operators who ask for $2, or with none.
beside() {
    for _ in 1 2 3; do once "$2" || exit; done >"$work/tries"
    read -r taken slowest responses <<END
$(sort -n "$work/tries" | head -n 1)
END
    report "$1" $((recorders * blocks * size)) "$taken" "$long_bodies" ", slowest $slowest, responses a second: $responses"
}

report_digests
beside '16 recorders, nobody asks' ''
beside '16 recorders, /takes.json is asked for' /takes.json
beside '16 recorders, /metrics are asked for' /metrics
