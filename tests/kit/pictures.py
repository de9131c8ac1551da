"""The picture of a WAVE file, by the definitions of bw_picture (Pages, Columns, Levels), apart from its code."""
import sys

sys.dont_write_bytecode = True  # nothing is left beside this script
from kit.waves import chunks_of, cues_of, fmt_of, milliseconds

MOST_COLUMNS = 1_200
HIGH = 200  # of a channel
TICK = 150  # columns from one time to the next


def clock(ms):
    """Milliseconds as hours, minutes and seconds."""
    seconds, part = divmod(ms, 1_000)
    return f"{seconds // 3_600}:{seconds // 60 % 60:02}:{seconds % 60:02}.{part:03}"


def levels(frame, width):
    """The numbers of a frame's samples, in two's complement, from the least one of their width on."""
    half = 1 << (8 * width - 1)
    places = range(0, len(frame), width)
    return [(int.from_bytes(frame[at : at + width], "little") + half) % (2 * half) for at in places]


def strokes_of(samples, width, channels, wide):
    """A stroke for each column and channel, from the greatest to the least level of so many frames."""
    align, top, found = width * channels, 1 << (8 * width), []
    for column, at in enumerate(range(0, len(samples), wide * align)):
        part = samples[at : at + wide * align]
        rows = [levels(part[frame : frame + align], width) for frame in range(0, len(part), align)]
        for channel, heard in enumerate(zip(*rows)):
            high, low = ((top - 1 - level) * HIGH // top for level in (max(heard), min(heard)))
            found.append(f"M{column} {channel * HIGH + high}V{channel * HIGH + low + 1}")
    return "".join(found)


def opening(columns, height):
    looks = "font-family='sans-serif' font-size='11' text-anchor='middle'"
    return (
        f"<svg xmlns='http://www.w3.org/2000/svg' viewBox='-40 -20 {columns + 80} {height + 44}' {looks}>\n"
        "<rect x='-40' y='-20' width='100%' height='100%' fill='#fff'/>\n"
    )


def group(x, y, content):
    return f"<g transform='translate({x} {y})'>{content}</g>\n"


def picture(file):
    """The text that `picture` prints of a file which has a recording."""
    found = {}
    for name, at, size in chunks_of(file)[0]:
        found.setdefault(name, file[at + 8 : at + 8 + size])
    fmt, samples = fmt_of(found[b"fmt "]), found[b"data"]
    cues = cues_of(found[b"cue "], fmt["rate"]) if b"cue " in found else []
    frames = len(samples) // fmt["align"]
    wide = max(-(-frames // MOST_COLUMNS), 1)
    columns, height = -(-frames // wide), HIGH * fmt["channels"]
    middles = "".join(f"M0 {channel * HIGH + HIGH // 2}H{columns}" for channel in range(fmt["channels"]))
    times = ((at, clock(milliseconds(at * wide, fmt["rate"]))) for at in range(0, columns + 1, TICK))
    ticks = [group(at, height, f"<path stroke='#000' d='M0 0v5'/><text y='16'>{time}</text>") for at, time in times]
    line = f"<path stroke='#c30' d='M0 0V{height}'/>"
    markers = [
        group(cue["offset"] // wide, 0, f"{line}<text y='-6' fill='#c30'>{cue['id']}</text>")
        for cue in cues
        if cue["offset"] < frames
    ]
    return "".join(
        [
            opening(columns, height),
            f"<path stroke='#ccc' d='{middles}'/>\n",
            f"<path stroke='#246' d='{strokes_of(samples, fmt['bits'] // 8, fmt['channels'], wide)}'/>\n",
            f"<path stroke='#000' d='M0 {height}H{columns}'/>\n",
            *ticks,
            *markers,
            "</svg>\n",
        ]
    )


if __name__ == "__main__":
    with open(sys.argv[1], "rb") as opened:
        sys.stdout.write(picture(opened.read()))
