#!/bin/sh
# How fast `serve --journal` recovers 256 open takes with 100,000 numbers each, a take at its first message: MB/s of
# their journals (1.37 GB; a MB is 1,000,000 bytes), after a start that reads none of them, and the server's most
# memory. One take is made by bench/client.c; the others are its files under other names, with the header that such a
# journal has. The second server finds in memory what the first had to read from the disk.
# The program is the first argument, or the one of this repository. Needs cc, awk, python3, and GNU time.

here=$(dirname -- "$(readlink -f -- "$0")") || exit
. "$here/common.sh"
takes=256
blocks=99999

make_folder() {
    serve 1 --journal
    "$work/client" $port take $blocks 2 >"$work/output" || exit
    wait $server || exit
    mkdir "$work/many" || exit
    python3 - "$work/takes/take" "$work/many" $takes <<'END'
import hashlib, pathlib, sys
made, many, takes = sys.argv[1], pathlib.Path(sys.argv[2]), int(sys.argv[3])
journal, samples = pathlib.Path(made + ".journal").read_bytes(), pathlib.Path(made + ".wav").read_bytes()
header, entries = bytes.fromhex(journal[4:46].decode()), journal[46 : journal.rindex(2, 0, -1) + 1]  # without the CLOSE
for take in range(takes):
    name = f"take-{take}"
    content = header[:5] + hashlib.sha256(name.encode()).digest()[:8]
    sealed = content + hashlib.sha256(content).digest()[:8]
    many.joinpath(name + ".journal").write_bytes(journal[:4] + sealed.hex().encode() + entries)
    many.joinpath(name + ".wav").write_bytes(samples)
END
}

# Asks which number of each take comes next, one take after another.
ask_each() {
    python3 - $port $takes $((blocks + 1)) <<'END'
import socket, struct, sys
port, takes, following = map(int, sys.argv[1:])
with socket.create_connection(("127.0.0.1", port)) as peer, peer.makefile("rb") as replies:
    for take in range(takes):
        name = f"take-{take}".encode()
        body = bytes([6, len(name)]) + name + bytes(4)
        peer.sendall(struct.pack("<I", len(body)) + body)
        reply = replies.read(int.from_bytes(replies.read(4), "little"))
        if int.from_bytes(reply[-4:], "little") != following:
            sys.exit(f"{name.decode()}: {reply.hex()}")
END
}

recover_all() {
    next_port
    : >"$work/lines"
    noted recover "$program" serve --listen 127.0.0.1:$port --folder "$work/many" --journal --until-stopped \
        >"$work/lines" &
    server=$!
    while ! grep -q listening "$work/lines" && kill -0 $server 2>/dev/null; do sleep 0.01; done
    took=$(seconds ask_each) || exit
    kill "$(cat "$work/recover.pid")"
    wait $server
    awk -v bytes="$(cat "$work/many"/*.journal | wc -c)" -v took="$took" -v more="$(used recover)" 'BEGIN {
        printf "%.0f MB of journals recovered: %.2f s, %.1f MB/s%s\n", bytes / 1e6, took, bytes / took / 1e6, more
    }'
}

make_folder
recover_all
recover_all
recover_all
