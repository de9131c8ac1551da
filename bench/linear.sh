#!/bin/sh
# What a server's processor does for 1 to 200 recorders at once, as an SVG on standard output: each sends 4 MiB in blocks
# of 32 KiB from bench/client.c over loopback, into a folder of TMPDIR, to `serve --recorders 256`. A circle is the
# processor time of the server in one run, the least of three; the line through the origin is the one nearest to them. On
# standard error is a line for each. The program is the first argument, or the one of this repository. Needs cc, awk and
# GNU time.

here=$(dirname -- "$(readlink -f -- "$0")") || exit
. "$here/common.sh"

# The processor seconds of a server that takes 4 MiB from each of $1 recorders.
processor_seconds() {
    for _ in 1 2 3; do
        serve "$1" --recorders 256
        "$work/client" $port take 128 32768 "$1" >/dev/null || exit
        wait $server || exit
        awk '{ print $1 + $4 }' "$work/server.used"
    done | sort -n | head -n 1
}

for recorders in 1 25 50 75 100 125 150 175 200; do
    seconds=$(processor_seconds $recorders) || exit
    echo "$recorders recorders: $seconds processor seconds" >&2
    echo "$recorders $seconds"
done >"$work/points"

awk '{
    recorders[NR] = $1
    seconds[NR] = $2
    along += $1 * $2
    square += $1 * $1
    if ($2 > most) most = $2
} END {
    slope = along / square
    step = most > 8 ? 2 : most > 3 ? 1 : most > 1.5 ? 0.5 : 0.2
    top = step * int(most / step + 1)
    print "<svg xmlns=\"http://www.w3.org/2000/svg\" viewBox=\"0 0 640 360\" font-family=\"sans-serif\" font-size=\"13\">"
    print "<rect width=\"640\" height=\"360\" fill=\"#ffffff\"/>"
    for (mark = 0; mark <= top + step / 2; mark += step) {
        y = 310 - 280 * mark / top
        printf "<path d=\"M60 %.1fH620\" stroke=\"#dddddd\"/><text x=\"52\" y=\"%.1f\" text-anchor=\"end\">%g</text>\n", y, y + 4, mark
    }
    for (mark = 0; mark <= 200; mark += 50)
        printf "<text x=\"%.1f\" y=\"328\" text-anchor=\"middle\">%d</text>\n", 60 + 2.7 * mark, mark
    printf "<path d=\"M60 310L600 %.1f\" stroke=\"#888888\"/>\n", 310 - 280 * slope * 200 / top
    for (i = 1; i <= NR; i++)
        printf "<circle cx=\"%.1f\" cy=\"%.1f\" r=\"4\" fill=\"#1f5fa8\"/>\n", 60 + 2.7 * recorders[i], 310 - 280 * seconds[i] / top
    print "<text x=\"330\" y=\"350\" text-anchor=\"middle\">recorders at once, 4 MiB each</text>"
    print "<text x=\"60\" y=\"18\">processor seconds of the server</text>"
    print "</svg>"
}' "$work/points"
