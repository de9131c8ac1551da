#!/bin/sh
# How fast `serve` takes takes over loopback into a folder on the disk of TMPDIR: 1 GiB in blocks of 32 KiB and 64 MiB
# in blocks of 1 KiB from bench/client.c, which keeps 16 messages in flight, and takes of 7 MB from `send`. Beside it,
# in the same run: SHA-256 alone over bodies of the same lengths, the server's own (to which the ratios are), openssl's
# and sha256sum's; the disk's own speed; and, where they are installed, socat and mosquitto with QoS 2, each to a file.
# A line has MB/s (a MB is 1,000,000 bytes), the ratio to SHA-256 alone, and of a server its processor time and most
# memory. The program is the first argument, or the one of this repository. Needs cc, awk, openssl, and GNU time for the
# rest.

here=$(dirname -- "$(readlink -f -- "$0")") || exit
. "$here/common.sh"

# A take of $1 blocks of $2 bytes from the client, beside SHA-256's MB/s $3.
client_take() {
    serve 1
    taken=$("$work/client" $port take "$1" "$2") || exit
    wait $server || exit
    report "serve, $1 blocks of $2 bytes" $(($1 * $2)) "${taken% *}" "$3" "$(used server)"
}

# The lines of a take of 213 blocks of 32 KiB for `send`: 215 requests, so 14 windows of 16.
request_lines() {
    awk 'BEGIN {
        samples = "7f"
        while (length(samples) < 65536) samples = samples samples
        print "0180bb0000010010000000"
        for (block = 0; block < 213; block++) print "02" samples
        frames = 213 * 32768 / 2
        printf "05%02x%02x%02x%02x00000000\n", frames % 256, int(frames / 256) % 256, int(frames / 65536) % 256, 0
    }'
}

send_takes() {
    for take in 1 2 3 4 5 6 7 8; do
        "$program" send --connect 127.0.0.1:$port --name take-$take <"$work/requests" || exit
    done
}

# A file through socat to another file.
socat_copy() {
    next_port
    noted socat socat -u TCP-LISTEN:$port,bind=127.0.0.1 CREATE:"$work/copy" &
    listener=$!
    until socat -u FILE:"$1" TCP:127.0.0.1:$port 2>/dev/null; do sleep 0.05; done
    wait $listener
}

# 4,096 messages of 32 KiB of text, each exactly once, through a broker to a file.
mosquitto_copy() {
    mosquitto_sub -h 127.0.0.1 -p $port -t take -q 2 -C 4096 >"$work/copy" &
    subscriber=$!
    sleep 1 # for the subscription, and counted off below
    mosquitto_pub -h 127.0.0.1 -p $port -t take -q 2 -l <"$work/messages" && wait $subscriber
}

with_mosquitto() {
    next_port
    printf 'listener %s 127.0.0.1\nallow_anonymous true\nmax_queued_messages 0\n' $port >"$work/broker.conf"
    if [ "$(id -u)" = 0 ]; then echo 'user root' >>"$work/broker.conf"; fi
    noted broker mosquitto -c "$work/broker.conf" 2>/dev/null &
    broker=$!
    until mosquitto_pub -h 127.0.0.1 -p $port -t ready -m ready 2>/dev/null; do sleep 0.05; done
    awk 'BEGIN {
        text = "7f"
        while (length(text) < 32768) text = text text
        for (i = 0; i < 4096; i++) print text
    }' >"$work/messages"
    taken=$(seconds mosquitto_copy)
    kill "$(cat "$work/broker.pid")" && wait $broker
    report 'mosquitto with QoS 2, 128 MiB in 32 KiB' 134217728 "$(awk -v s="$taken" 'BEGIN { print s - 1 }')" \
        "$long_bodies" "$(used broker)"
}

report_digests

client_take 32768 32768 "$long_bodies"
file=$work/takes/take.wav
report 'sha256sum of that file' 1073741824 "$(seconds sha256sum "$file")" "$long_bodies"
export file
report 'cat FILE > COPY, and sync' 1073741824 "$(seconds sh -c 'cat "$file" >"$work/copy" && sync "$work/copy"')" \
    "$long_bodies"
rm "$work/copy"
report 'dd of 32 KiB writes, and sync' 1073741824 \
    "$(seconds dd if=/dev/zero of="$work/copy" bs=32K count=32768 conv=fsync status=none)" "$long_bodies"
rm "$work/copy"
if command -v socat >/dev/null; then
    report 'socat to a file, without sync' 1073741824 "$(seconds socat_copy "$file")" "$long_bodies" "$(used socat)"
    rm "$work/copy"
else
    echo 'socat is not installed'
fi

client_take 65536 1024 "$short_bodies"

request_lines >"$work/requests"
serve $((8 * 14))
taken=$(seconds send_takes)
wait $server || exit
report 'send, 8 takes of 7 MB to one server' $((8 * 213 * 32768)) "$taken" "$long_bodies" "$(used server)"

if command -v mosquitto >/dev/null && command -v mosquitto_pub >/dev/null; then
    with_mosquitto
else
    echo 'mosquitto or its clients are not installed'
fi
