#!/bin/sh
# How long `replay` takes over whole runs, and the most memory that it has: large blocks of one name, and small ones of
# 256 names in turn, eight numbers in an exchange, the last first, and each exchange twice. Each input is beside one
# of half its length, to show that the time grows as the input does. Needs awk, and GNU time for the memory.

here=$(dirname -- "$(readlink -f -- "$0")") || exit
program=$("$here/../tools/program") || exit
work=$(mktemp -d) || exit
trap 'rm -rf "$work"' EXIT

# The lines of $1 takes with $2 times eight blocks of $3 bytes each; an exchange of blocks comes $4 times.
lines() {
    awk -v takes="$1" -v groups="$2" -v size="$3" -v times="$4" '
        function bytes(n) {
            return sprintf("%02x%02x%02x00", n % 256, int(n / 256) % 256, int(n / 65536))
        }
        # a frame of a take, up to its payload of so many bytes
        function prefix(kind, take, number, len) {
            return bytes(9 + len) kind "03" sprintf("6e%02x%02x", 97 + int(take / 16), 97 + take % 16) bytes(number)
        }
        BEGIN {
            samples = "7f"
            while (length(samples) < 2 * size) samples = samples samples
            samples = substr(samples, 1, 2 * size)
            for (take = 0; take < takes; take++) print prefix("01", take, 0, 10) "80bb0000010010000000"
            for (group = 0; group < groups; group++)
                for (take = 0; take < takes; take++)
                    for (time = 0; time < times; time++) {
                        for (slot = 8; slot > 0; slot--) printf "%s", prefix("02", take, 8 * group + slot, size) samples
                        print ""
                    }
        }'
}

# Replays the lines in `input`, under the name $1.
replay() {
    printf '%s: %s bytes of lines, ' "$1" "$(wc -c <"$work/input")"
    command time -f '%e s, %M KiB' -o "$work/used" "$program" replay <"$work/input" >"$work/text" || exit
    printf '%s, %s exchanges, %s files\n' "$(cat "$work/used")" "$(grep -c '^exchange' "$work/text")" \
        "$(grep -c '^file' "$work/text")"
}

for groups in 15 31; do
    lines 1 $groups 32768 1 >"$work/input" && replay 'large blocks'
done
for groups in 7 14; do
    lines 256 $groups 128 2 >"$work/input" && replay 'small blocks of 256 names, twice'
done
