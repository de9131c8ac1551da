#!/bin/sh
# How fast a server takes messages: blocks of 32 KiB and of 1 KiB through `turn`, over a store in memory, beside
# SHA-256 alone over the same bodies in the same run. Proves and builds a small program over copies of the crates
# first, which takes minutes where they aren't proved yet; the copies are removed after.

here=$(dirname -- "$(readlink -f -- "$0")") || exit
folder=$(mktemp -d) || exit
trap 'rm -rf "$folder"' EXIT
trap 'exit 1' HUP INT TERM

crate=$folder/crates/bench_turn
mkdir -p "$crate/src" "$crate/specs" "$crate/proofs" || exit
for name in bw_model bw_model bw_digest bw_stream bw_model bw_wire bw_layout bw_take bw_store bw_file bw_journal \
    bw_exchange bw_session; do
    cp -r "$here/../crates/$name" "$folder/crates" && grep "^$name:" "$here/../crates.txt" || exit
done >"$folder/crates.txt"
echo 'bench_turn: bw_model bw_wire bw_layout bw_store bw_session arrayvec sha2 anyhow' >>"$folder/crates.txt"
cp "$here/../HANDLES" "$folder" || exit
: >"$crate/specs/Lib.antt"
: >"$crate/proofs/Lib.antt"

cat >"$crate/src/main.rt" <<'END'
//! Takes blocks through a server's turn, and their bodies through SHA-256.
#![tactic(auto)]

use anyhow::Result;
use arrayvec::ArrayVec;
use bw_layout::Limit;
use bw_model::{Name, RequestRef};
use bw_session::Server;
use bw_store::MemoryStore;
use bw_wire::{Frame, Reply, decode, encode};
use sha2::{Digest, Sha256};
use std::alloc::Global;
use std::time::Instant;

/// The frames of a take: it is opened, and so many blocks follow.
fn frames(alloc: Global, name: &Name, count: u32, block: &[u8]) -> Result<Vec<Vec<u8>>> {
    let mut frames = Vec::with_capacity(alloc, 1 + count as usize)?;
    let opening = RequestRef::OpenTake {
        rate: 48_000,
        channels: 1,
        bits: 16,
        history: b"",
    };
    frames.push(encode(alloc, name, 0, &opening)?)?;
    let request = RequestRef::Block { bytes: block };
    if !request.fits() || count > 65_536 {
        return Ok(frames);
    }
    for number in 1..=count {
        frames.push(encode(alloc, name, number, &request)?)?;
    }
    Ok(frames)
}

/// What a frame has after its length.
fn body(frame: &[u8]) -> &[u8] {
    if frame.len() < 4 {
        return frame;
    }
    &frame[4..]
}

fn main(rt: HostRuntime) -> Result<()> {
    let alloc = rt.alloc();
    let Some(name) = Name::new(b"take") else {
        return Ok(());
    };
    for (count, len) in [(8192u32, 32_768usize), (65_536, 1024)] {
        let mut block = Vec::new(alloc);
        block.resize(len, 7)?;
        let frames = frames(alloc, &name, count, block.as_slice())?;
        let start = Instant::now(&rt)?;
        let mut sum = 0u8;
        for frame in frames.as_slice() {
            sum ^= Sha256::digest(body(frame))[0];
        }
        let alone = start.elapsed(&rt)?;
        let Ok(mut server) = Server::new(alloc, MemoryStore::new(alloc), Limit::default()) else {
            return Ok(());
        };
        let mut out: ArrayVec<Reply, 17> = ArrayVec::new();
        let start = Instant::now(&rt)?;
        for frame in frames.as_slice() {
            if let Ok(Frame::Message(message)) = decode(body(frame)) {
                server.turn(&message, &mut out);
            }
        }
        let turns = start.elapsed(&rt)?;
        println!(rt; "{len} bytes a block: SHA-256 {} ms, turns {} ms ({sum})", alone.as_millis(), turns.as_millis())?;
        let done = server.done(&name).unwrap_or(0);
        println!(rt; "  {done} done, {} bytes kept", server.kept_bytes(&name).unwrap_or(0))?;
    }
    Ok(())
}
END
(cd "$crate" && rt run) >"$folder/log" 2>&1 || {
    cat "$folder/log" >&2
    exit 1
}
if [ -x /usr/bin/time ]; then
    /usr/bin/time -f '%M KiB at most' "$crate/out/bench_turn"
else
    "$crate/out/bench_turn"
fi
