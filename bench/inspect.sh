#!/bin/sh
# How long `bwingest inspect` takes, beside `cat` and, where it is installed, `ffprobe`: the least of
# three runs each, in milliseconds. Two BW64 files, which are removed after: a sparse one of 8 GiB that is
# held in memory, and one of 1 GiB of noise that is read from the disk each time.

here=$(dirname -- "$(readlink -f -- "$0")") || exit
program=$("$here/../tools/program") || exit
folder=$(mktemp -d) || exit
trap 'rm -rf "$folder"' EXIT
trap 'exit 1' HUP INT TERM

# The form, `ds64` with the sizes of form and data, `fmt ` (48,000 Hz, two channels, 16 bits), `data`: of a file
# whose length less one ends with the bytes FFFFFFh and then $1.
header() {
    printf 'BW64\377\377\377\377WAVE'
    printf "ds64\\034\\000\\000\\000\\370\\377\\377$1\\000\\000\\000\\260\\377\\377$1\\000\\000\\000"
    printf '\000\000\000\000\000\000\000\000\000\000\000\000'
    printf 'fmt \020\000\000\000\001\000\002\000\200\273\000\000\000\356\002\000\004\000\020\000'
    printf 'data\377\377\377\377'
}

# How many milliseconds a command takes, after another that isn't timed.
milliseconds() {
    sh -c "$1" >/dev/null 2>&1
    start=$(date +%s%N)
    sh -c "$2" >/dev/null || exit
    end=$(date +%s%N)
    echo $(((end - start) / 1000000))
}

# A line for a command: its name, what comes before it, and itself.
report() {
    least=$(for _ in 1 2 3; do milliseconds "$2" "$3"; done | sort -n | head -n 1)
    printf '%8s ms  %s\n' "$least" "$1"
}

# The lines for a file, with what comes before each command.
report_all() {
    report 'bwingest inspect FILE' "$1" '"$program" inspect "$file"'
    report 'cat FILE | bwingest inspect /dev/stdin' "$1" 'cat "$file" | "$program" inspect /dev/stdin'
    report 'cat FILE | cat > /dev/null' "$1" 'cat "$file" | cat'
    report 'cat FILE > /dev/null' "$1" 'cat "$file"'
}

export program file
file=$folder/sparse.wav
header '\377\001' >"$file" && truncate -s 8589934592 "$file" || exit
cat "$file" >/dev/null # what was never read is slower the first time
echo '8 GiB, sparse, held in memory:'
report_all :
if command -v ffprobe >/dev/null; then
    report 'ffprobe FILE' : 'ffprobe -v error -show_streams "$file"'
    report 'cat FILE | ffprobe -' : 'cat "$file" | ffprobe -v error -show_streams -'
fi
if command -v taskset >/dev/null; then
    # between two processors a pipe may be slower than what is read from it
    echo 'on one processor:'
    before=$(taskset -pc $$ | sed 's/.*: //')
    taskset -pc "${before%%[-,]*}" $$ >/dev/null
    report_all :
    taskset -pc "$before" $$ >/dev/null
fi
rm "$file"

file=$folder/noise.wav
{ header '\077\000' && head -c 1073741744 /dev/urandom; } >"$file" && sync || exit
echo '1 GiB, from the disk:'
report_all 'dd if="$file" of=/dev/null count=0 iflag=nocache' # the kernel drops what it holds of the file
