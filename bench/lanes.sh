#!/bin/sh
# What limits a server: how fast SHA-256 is alone, one body at a time and eight in the lanes of vectors (`bw_digest`), as
# built for each x86-64 processor and for x86-64-v3; and how fast a C program is that makes the system calls of a server
# and hashes nothing (calls.c), for 1 and 16 recorders, with blocks of 32 KiB and of 1 KiB. A line has MB/s (a MB is
# 1,000,000 bytes). Needs cc, awk and the toolchain, whose `rt run` proves and builds the lanes: a minute or two.

here=$(dirname -- "$(readlink -f -- "$0")") || exit
. "$here/common.sh"

# A small program that hashes bodies of the two lengths, eight at a time and one by one.
make_lanes() {
    crate=$work/lanes/crates/bench_lanes
    mkdir -p "$crate/src" "$crate/specs" "$crate/proofs" && : >"$crate/specs/Lib.antt" && : >"$crate/proofs/Lib.antt" &&
        cp "$here/../HANDLES" "$work/lanes" && cp -r "$here/../crates/bw_digest" "$work/lanes/crates" &&
        printf 'bw_digest: sha2\nbench_lanes: bw_digest sha2 anyhow\n' >"$work/lanes/crates.txt" || exit
    cat >"$crate/src/main.rt" <<'END'
//! Measures how fast SHA-256 is in lanes, and one body at a time.
#![tactic(auto)]

use anyhow::Result;
use bw_digest::digests;
use sha2::{Digest, Sha256};
use std::time::Instant;

fn main(rt: HostRuntime) -> Result<()> {
    for (count, len) in [(1024u32, 32_778usize), (16_384, 1034)] {
        let mut body = Vec::new(rt.alloc());
        body.resize(len, 7)?;
        let mut sum = 0u8;
        for _time in 0..3 {
            let start = Instant::now(&rt)?;
            for _body in 0..count {
                sum ^= digests(&[body.as_slice(); 8])[7][0];
            }
            let eight = start.elapsed(&rt)?.as_micros();
            let start = Instant::now(&rt)?;
            for _body in 0..count {
                sum ^= Sha256::digest(body.as_slice())[0];
            }
            println!(rt; "{len} {count} {eight} {} {sum}", start.elapsed(&rt)?.as_micros())?;
        }
    }
    Ok(())
}
END
}

# Builds it with the words given, and reports the most of three times.
run_lanes() {
    what=$1
    shift
    (cd "$work/lanes/crates/bench_lanes" && rt run "$@") >"$work/log" 2>&1 || {
        cat "$work/log" >&2
        exit 1
    }
    "$work/lanes/crates/bench_lanes/out/bench_lanes" | awk -v what="$what" '
        { eight[$1] = $3 && 8 * $1 * $2 / $3 > eight[$1] ? 8 * $1 * $2 / $3 : eight[$1]
          one[$1] = $4 && $1 * $2 / $4 > one[$1] ? $1 * $2 / $4 : one[$1] }
        END { for (len in eight) printf "%-44s %7.1f MB/s in lanes, %.1f one at a time\n", what ", bodies of " len, eight[len], one[len] }'
}

# The calls of $1 recorders with $2 blocks each of $3 bytes.
run_calls() {
    next_port
    rm -rf "$work/takes" && mkdir "$work/takes" && : >"$work/lines" || exit
    noted calls "$work/calls" $port "$work/takes" "$1" >"$work/lines" &
    server=$!
    while [ ! -s "$work/lines" ] && kill -0 $server 2>/dev/null; do sleep 0.05; done
    taken=$("$work/client" $port take "$2" "$3" "$1") || exit
    wait $server || exit
    awk -v what="calls alone, $1 recorders, blocks of $3" -v bytes=$(($1 * $2 * $3)) -v seconds="${taken% *}" \
        -v more="$(used calls)" 'BEGIN { printf "%-44s %7.1f MB/s%s\n", what, bytes / seconds / 1e6, more }'
}

cc -O2 -o "$work/calls" "$here/calls.c" || exit
make_lanes
run_lanes 'for each x86-64 processor'
run_lanes 'for x86-64-v3' --cpu x86-64-v3
run_calls 1 16384 32768
run_calls 16 1024 32768
run_calls 1 65536 1024
run_calls 16 4096 1024
