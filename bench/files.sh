#!/bin/sh
# How fast `send --file` brings a WAV file to `serve`, into a folder on the disk of TMPDIR: over loopback, beside
# bench/client.c and, where they are installed, rsync --whole-file to a daemon, curl -T to nginx and socat, in the same
# run; and over 1, 10 and 100 ms of round trip between two network namespaces, where this may make them (root, ip), beside
# the same and the most that sixteen blocks a round trip allow. Then the most memory of `send` for a file of 1 MiB and a
# sparse one of 5 GiB, and its processor time beside the server's. A line has MB/s (a MB is 1,000,000 bytes) and what else
# it says. The program is the first argument, or the one of this repository. BENCH_BYTES is the size of the file in bytes
# (1 GiB), BENCH_FAR_BYTES that of the one for the round trips (64 MiB), BENCH_LONG_BYTES that of the sparse one. Needs
# cc, awk, and GNU time for memory and processor time.

here=$(dirname -- "$(readlink -f -- "$0")") || exit
. "$here/common.sh"
cc -O2 -o "$work/files" "$here/files.c" || exit
bytes=${BENCH_BYTES:-1073741824}
far_bytes=${BENCH_FAR_BYTES:-67108864}
long_bytes=${BENCH_LONG_BYTES:-5368709120}
address=127.0.0.1
there= # runs a command where the server is
near=  # runs a command where the sender is
wide=  # an option of both

# A WAV file of $1 bytes of samples, which can't be compressed.
make_file() {
    "$work/files" header "$1" >"$work/take.wav" && head -c "$1" /dev/urandom >>"$work/take.wav" || exit
}

# A line: what was measured, bytes, seconds, and more.
speed() {
    awk -v what="$1" -v bytes="$2" -v seconds="$3" -v more="$4" 'BEGIN {
        printf "%-34s %8.2f MB/s%s\n", what, bytes / seconds / 1e6, more
    }'
}

# Starts a server where the server is. Its port is in `port`.
start_server() {
    rm -rf "$work/takes" && mkdir "$work/takes" || exit
    next_port
    : >"$work/lines"
    noted server $there "$program" serve $wide --listen "$address:$port" --folder "$work/takes" --exchanges 1 \
        >"$work/lines" &
    server=$!
    while [ ! -s "$work/lines" ] && kill -0 $server 2>/dev/null; do sleep 0.05; done
    if [ ! -s "$work/lines" ]; then
        echo 'no server starts' >&2
        exit 1
    fi
}

send_file() {
    noted sender $near "$program" send $wide --connect "$address:$port" --name take --file "$work/take.wav"
}

# `send --file` of $1 bytes of samples, beside $2, of which the speed in MB/s is $3.
measure_send() {
    start_server
    sent=$(seconds send_file) || exit
    wait $server || exit
    if [ "$(tail -c "$1" "$work/take.wav" | cksum)" != "$(tail -c "$1" "$work/takes/take.wav" | cksum)" ]; then
        echo 'the samples differ' >&2
        exit 1
    fi
    speed 'send --file' "$1" "$sent" "$(awk -v bytes="$1" -v seconds="$sent" -v most="$3" -v what="$2" 'BEGIN {
        printf ", %.2f of %s", bytes / seconds / 1e6 / most, what
    }')"
    printf '    send%s, serve%s\n' "$(used sender)" "$(used server)"
}

measure_client() {
    start_server
    taken=$("$work/client" $port take $((bytes / 32768)) 32768) || exit
    wait $server || exit
    taken=${taken% *}
    speed 'bench/client.c' "$bytes" "$taken" "$(used server)"
    client_speed=$(awk -v bytes="$bytes" -v seconds="$taken" 'BEGIN { print bytes / seconds / 1e6 }')
}

# Stops the server of the other programs.
stop_other() {
    kill "$(cat "$work/other.pid")" 2>/dev/null
    wait $other 2>/dev/null
    rm -rf "$work/copy"
}

rsync_file() {
    $near rsync --whole-file "$work/take.wav" "rsync://$address:$port/copy/" 2>"$work/rsync.log"
}

measure_rsync() {
    command -v rsync >/dev/null || { echo 'rsync is not installed'; return; }
    next_port
    mkdir -p "$work/copy"
    printf 'use chroot = no\nuid = %s\ngid = %s\n[copy]\npath = %s\nread only = no\n' "$(id -u)" "$(id -g)" \
        "$work/copy" >"$work/rsync.conf"
    noted other $there rsync --daemon --no-detach --address="$address" --port=$port --config="$work/rsync.conf" &
    other=$!
    until $near rsync "rsync://$address:$port/" >/dev/null 2>&1; do sleep 0.1; done
    taken=$(seconds rsync_file) && speed 'rsync --whole-file to a daemon' "$1" "$taken"
    stop_other
}

curl_file() {
    $near curl -s -f -T "$work/take.wav" "http://$address:$port/take.wav"
}

measure_curl() {
    command -v curl >/dev/null && command -v nginx >/dev/null || { echo 'curl or nginx is not installed'; return; }
    if ! nginx -V 2>&1 | grep -q http_dav_module; then echo "nginx has no dav module"; return; fi
    next_port
    mkdir -p "$work/copy" "$work/spool" && chmod 777 "$work" "$work/copy" "$work/spool"
    cat >"$work/nginx.conf" <<END
daemon off;
pid $work/nginx.lock;
error_log $work/nginx.log;
events { }
http {
    access_log off;
    client_body_temp_path $work/spool;
    server {
        listen $address:$port;
        client_max_body_size 0;
        root $work/copy;
        location / { dav_methods PUT; }
    }
}
END
    noted other $there nginx -c "$work/nginx.conf" 2>/dev/null &
    other=$!
    until $near curl -s "http://$address:$port/" >/dev/null; do sleep 0.1; done
    taken=$(seconds curl_file) && speed 'curl -T to nginx' "$1" "$taken"
    stop_other
}

socat_file() {
    noted other $there socat -u "TCP-LISTEN:$port,bind=$address" "CREATE:$work/copy/take.wav" &
    other=$!
    until $near socat -u "FILE:$work/take.wav" "TCP:$address:$port" 2>/dev/null; do sleep 0.05; done
    wait $other
}

measure_socat() {
    command -v socat >/dev/null || { echo 'socat is not installed'; return; }
    next_port
    mkdir -p "$work/copy"
    taken=$(seconds socat_file) && speed 'socat' "$1" "$taken"
    rm -rf "$work/copy"
}

# The same over a round trip of $1 ms.
measure_far() {
    ip netns add bwingest-near && ip netns add bwingest-there || return
    noted delay "$work/files" delay bwingest-near bwingest-there "$(awk -v ms="$1" 'BEGIN { print ms / 2 }')" &
    delay=$!
    until ip -n bwingest-near link show far >/dev/null 2>&1 && ip -n bwingest-there link show far >/dev/null 2>&1; do
        sleep 0.1
    done
    ip -n bwingest-near address add 10.77.0.1/24 dev far && ip -n bwingest-near link set far mtu 9000 up
    ip -n bwingest-there address add 10.77.0.2/24 dev far && ip -n bwingest-there link set far mtu 9000 up
    address=10.77.0.2
    near='ip netns exec bwingest-near'
    there='ip netns exec bwingest-there'
    wide=--network
    echo "over $1 ms of round trip, $far_bytes bytes"
    measure_send "$far_bytes" 'sixteen blocks a round trip' "$(awk -v ms="$1" 'BEGIN { print 524288 / ms / 1000 }')"
    measure_rsync "$far_bytes"
    measure_curl "$far_bytes"
    measure_socat "$far_bytes"
    kill "$(cat "$work/delay.pid")"
    wait $delay 2>/dev/null
    remove_far
}

remove_far() {
    ip netns del bwingest-near 2>/dev/null
    ip netns del bwingest-there 2>/dev/null
    address=127.0.0.1 near= there= wide=
}

# The most memory of `send` for a file of $1 bytes of samples, which is sparse.
measure_memory() {
    "$work/files" header "$1" >"$work/take.wav" && head=$(wc -c <"$work/take.wav") &&
        truncate -s $((head + $1)) "$work/take.wav" || exit
    start_server
    send_file >/dev/null || exit
    wait $server || exit
    printf 'a file of %s bytes: send%s, serve%s\n' "$1" "$(used sender)" "$(used server)"
}

make_file "$bytes"
echo "over loopback, $bytes bytes"
measure_client
measure_send "$bytes" 'the client' "$client_speed"
measure_rsync "$bytes"
measure_curl "$bytes"
measure_socat "$bytes"

if [ "$(id -u)" = 0 ] && command -v ip >/dev/null && [ -e /dev/net/tun ]; then
    trap 'end_started; remove_far; rm -rf "$work"' EXIT
    make_file "$far_bytes"
    for round_trip in 1 10 100; do measure_far $round_trip; done
else
    echo 'no round trips: they need root, ip and /dev/net/tun'
fi

measure_memory 1048576
measure_memory "$long_bytes"
