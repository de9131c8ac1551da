# What the benches of servers share; they read this file, and nobody runs it. `here` is this folder, `program` the
# program that is measured, `work` a folder that is removed at the end, with the client in it.

if [ $# -gt 0 ]; then
    program=$(readlink -f -- "$1") || exit
else
    program=$("$here/../tools/program") || exit
fi
work=$(mktemp -d) || exit
trap 'end_started; rm -rf "$work"' EXIT
trap 'exit 1' HUP INT TERM
cc -O2 -o "$work/client" "$here/client.c" || exit
export program work
tries=0
slow=

# Ends what was started and still runs: each has its process id in a file.
end_started() {
    for file in "$work"/*.pid; do
        if [ -e "$file" ]; then kill "$(cat "$file")" 2>/dev/null; fi
    done
}

# Runs the words after $1 with their process id in the file $1.pid, and their use of the machine in $1.used.
noted() {
    name=$1
    shift
    if [ -x /usr/bin/time ]; then
        /usr/bin/time -f '%U s user, %S s system, %M KiB' -o "$work/$name.used" \
            sh -c 'echo $$ >"$1" && shift && exec "$@"' sh "$work/$name.pid" "$@"
    else
        sh -c 'echo $$ >"$1" && shift && exec "$@"' sh "$work/$name.pid" "$@"
    fi
    noted_status=$?
    rm -f "$work/$name.pid"
    return $noted_status
}

used() {
    if [ -e "$work/$1.used" ]; then printf ' (%s)' "$(tail -n 1 "$work/$1.used")"; fi
}

# A port that is perhaps free; another one each time.
next_port() {
    tries=$((tries + 1))
    port=$((20000 + ($$ + 977 * tries) % 12000))
}

# Starts a server over an empty folder for $1 exchanges, with the options after that, and the library `slow`, if there
# is one, before its own. Its address is in `port`.
serve() {
    exchanges=$1
    shift
    rm -rf "$work/takes" && mkdir "$work/takes" || exit
    for _ in 1 2 3 4 5; do
        next_port
        : >"$work/lines"
        noted server env ${slow:+LD_PRELOAD="$slow"} "$program" serve --listen 127.0.0.1:$port \
            --folder "$work/takes" --exchanges "$exchanges" "$@" >"$work/lines" &
        server=$!
        while [ ! -s "$work/lines" ] && kill -0 $server 2>/dev/null; do sleep 0.05; done
        if [ -s "$work/lines" ]; then return; fi
    done
    echo 'no server starts' >&2
    exit 1
}

# A line: what was measured, bytes, seconds, SHA-256's MB/s at that length, and more.
report() {
    awk -v what="$1" -v bytes="$2" -v seconds="$3" -v alone="$4" -v more="$5" 'BEGIN {
        speed = bytes / seconds / 1e6
        printf "%-44s %7.1f MB/s %7.2f of SHA-256%s\n", what, speed, speed / alone, more
    }'
}

# How many seconds a command takes.
seconds() {
    start=$(date +%s%N)
    "$@" >"$work/output" || exit
    end=$(date +%s%N)
    awk -v start="$start" -v end="$end" 'BEGIN { printf "%.3f", (end - start) / 1e9 }'
}

# The MB/s of openssl's SHA-256 over bodies of $1 bytes, each by itself: the most of three times.
openssl_digests() {
    for _ in 1 2 3; do
        openssl speed -seconds 1 -bytes "$1" -mr -evp sha256 2>/dev/null
    done | awk -F: '/^\+F/ && $4 / 1e6 > most { most = $4 / 1e6 } END { print most }'
}

# A small program that takes bodies through the server's own SHA-256, each by itself, three times: a line has their
# length, how many they are, and the microseconds. `rt run` proves and runs it.
build_digests() {
    crate=$work/digest/crates/bench_digest
    mkdir -p "$crate/src" "$crate/specs" "$crate/proofs" && : >"$crate/specs/Lib.antt" && : >"$crate/proofs/Lib.antt" &&
        cp "$here/../HANDLES" "$work/digest" && echo 'bench_digest: sha2 anyhow' >"$work/digest/crates.txt" || exit
    cat >"$crate/src/main.rt" <<'END'
//! Measures how fast SHA-256 is alone.
#![tactic(auto)]

use anyhow::Result;
use sha2::{Digest, Sha256};
use std::time::Instant;

fn main(rt: HostRuntime) -> Result<()> {
    for (count, len) in [(8192u32, 32_778usize), (131_072, 1034)] {
        let mut body = Vec::new(rt.alloc());
        body.resize(len, 7)?;
        let mut sum = 0u8;
        for _time in 0..3 {
            let start = Instant::now(&rt)?;
            for _body in 0..count {
                sum ^= Sha256::digest(body.as_slice())[0];
            }
            println!(rt; "{len} {count} {} {sum}", start.elapsed(&rt)?.as_micros())?;
        }
    }
    Ok(())
}
END
    (cd "$crate" && rt run) >"$work/log" 2>&1 || {
        cat "$work/log" >&2
        exit 1
    }
}

# Its MB/s over bodies of $1 bytes: the most of three times.
own_digests() {
    awk -v wanted="$1" '$1 == wanted && $1 * $2 / $3 > most { most = $1 * $2 / $3 } END { print most }' "$work/digests"
}

# The bodies of blocks of a name of four bytes: kind, length, name and number take ten bytes.
report_digests() {
    build_digests
    "$crate/out/bench_digest" >"$work/digests" || exit
    long_bodies=$(own_digests 32778)
    short_bodies=$(own_digests 1034)
    printf "the server's own SHA-256 alone: %.1f MB/s over bodies of 32,778 bytes, %.1f of 1,034\n" \
        "$long_bodies" "$short_bodies"
    printf 'openssl SHA-256 alone: %.1f and %.1f\n' "$(openssl_digests 32778)" "$(openssl_digests 1034)"
}
