#!/bin/sh
# How long the replay of a journal in memory takes: of 250,000, 500,000 and 1,000,000 entries, each of a block;
# and where GNU time is installed, the most memory that all of it takes. Proves and builds a small program over
# copies of the crates first, which takes minutes where they aren't proved yet; the copies are removed after.

here=$(dirname -- "$(readlink -f -- "$0")") || exit
folder=$(mktemp -d) || exit
trap 'rm -rf "$folder"' EXIT
trap 'exit 1' HUP INT TERM

crate=$folder/crates/bench_replay
mkdir -p "$crate/src" "$crate/specs" "$crate/proofs" || exit
for name in bw_model bw_model bw_digest bw_model bw_wire bw_layout bw_take bw_store bw_journal; do
    cp -r "$here/../crates/$name" "$folder/crates" && grep "^$name:" "$here/../crates.txt" || exit
done >"$folder/crates.txt"
echo 'bench_replay: bw_model bw_layout bw_journal anyhow' >>"$folder/crates.txt"
cp "$here/../HANDLES" "$folder" || exit
: >"$crate/specs/Lib.antt"
: >"$crate/proofs/Lib.antt"

cat >"$crate/src/main.rt" <<'END'
//! Replays journals of more and more entries.
#![tactic(auto)]

use anyhow::Result;
use bw_journal::{JournalHeader, put_entry, replay};
use bw_layout::Limit;
use bw_model::{Name, RequestRef, Verdict};
use std::time::Instant;

fn main(rt: HostRuntime) -> Result<()> {
    let alloc = rt.alloc();
    let Some(name) = Name::new(b"take") else {
        return Ok(());
    };
    for entries in [250_000u32, 500_000, 1_000_000] {
        let mut journal = Vec::with_capacity(alloc, 56 * entries as usize + 100)?;
        let header = JournalHeader {
            limit: Limit::default(),
            existed: false,
        };
        journal.extend_from_slice(&header.to_bytes(&name))?;
        let opening = RequestRef::OpenTake {
            rate: 48_000,
            channels: 1,
            bits: 16,
            history: b"",
        };
        put_entry(alloc, &mut journal, Verdict::Stored, &[7u8; 32], &opening)?;
        let block = RequestRef::Block {
            bytes: &[0, 0, 0, 0],
        };
        for _entry in 1..entries {
            put_entry(alloc, &mut journal, Verdict::Stored, &[7u8; 32], &block)?;
        }
        if journal.len() > 1 << 32 {
            return Ok(());
        }
        let start = Instant::now(&rt)?;
        let replayed = replay(alloc, Limit::default(), &name, journal.as_slice())?;
        let elapsed = start.elapsed(&rt)?;
        println!(rt; "{entries} entries: {} ms", elapsed.as_millis())?;
        println!(rt; "  {} bytes read, {} kept", replayed.used, replayed.table.len())?;
    }
    Ok(())
}
END
(cd "$crate" && rt run) >"$folder/log" 2>&1 || {
    cat "$folder/log" >&2
    exit 1
}
if [ -x /usr/bin/time ]; then
    /usr/bin/time -f '%M KiB at most' "$crate/out/bench_replay"
else
    "$crate/out/bench_replay"
fi
