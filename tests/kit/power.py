"""What a power cut may leave of a folder whose calls were recorded (watcher.py), by the kind of its file system.

Each kind finds bytes that each place of a file has had since the file was last synced, as if sectors were written one by
one, or zeros where nothing stood at the last sync.

- free: each file for itself. Any length that it has had since its last sync, any bytes, and its name may be missing if
  the folder wasn't synced since it was made.
- ordered: names and lengths are those of one moment, not before the last sync of any file or of the folder, and the
  bytes that were appended until then are there (`data=ordered` of ext4).
- ext4: as ordered, but a file that wasn't synced may be as short as it was before, or end in zeros, since its blocks are
  given to it later (`delalloc`).
- xfs: names are those of one moment, and a file has a length that it has had until then, with its bytes, since the length
  is written after them.
"""

SECTOR = 512  # bytes
KINDS = ("free", "ordered", "ext4", "xfs")


class File:
    """The contents of a file since its last sync, the latest last, each with the call that made it; the call that made
    the file, and whether its name is certainly there."""

    def __init__(self, made):
        self.had, self.times = [b""], [made]
        self.made, self.listed = made, False

    def write(self, time, place, written):
        now = self.had[-1].ljust(place, b"\0")
        self.had.append(now[:place] + written + now[place + len(written) :])
        self.times.append(time)

    def sync(self):
        self.had, self.times = self.had[-1:], self.times[-1:]

    def left(self, chance, kind, moment):
        """What may be found of it, or None. Names and lengths are those of this moment."""
        if kind == "free":
            is_there, first = self.listed or chance.random() < 0.5, 0
            base = chance.choice(self.had)
        else:
            is_there = self.listed or self.made <= moment
            until = max(1, sum(time <= moment for time in self.times))
            first = until - 1 if kind == "ordered" else chance.randrange(until)
            base = self.had[first]
        if not is_there:
            return None
        synced, found = len(self.had[0]), self.mixed(chance, len(base), first)
        may_be_zero = kind in ("free", "ext4")
        if may_be_zero and synced < len(found) and chance.random() < 0.5:
            place = chance.randrange(synced, len(found))
            found = found[:place] + bytes(len(found) - place)
        return found

    def mixed(self, chance, length, first):
        """So many bytes, each sector as it was in some content: what was appended as in the first that may be found, or
        in a later one."""
        longest, found = max(self.had, key=len), b""
        for place in range(0, length, SECTOR):
            contents = self.had if place < len(self.had[0]) else self.had[first:]
            stood = [content for content in contents if len(content) > place]
            sector = chance.choice(stood)[place : place + SECTOR]
            found += sector + longest[place + len(sector) : place + SECTOR]
        return found[:length]


class Folder:
    """The files of a folder after the calls so far."""

    def __init__(self, path):
        self.path, self.files, self.places = str(path), {}, {}
        self.calls = self.synced = 0  # how many there were, and when something was last synced

    def apply(self, line):
        """One more call that was made, as its line says it."""
        self.calls += 1
        kind, _, rest = line.partition(" ")
        words = rest.split(" ")
        if " fails " in line:
            return
        if kind == "open" and "new" in words and words[0].startswith(self.path + "/"):
            self.files[words[0].rpartition("/")[2]] = File(self.calls)
        elif kind == "sync" and words[0] == self.path.rpartition("/")[2]:
            self.synced = self.calls
            for file in self.files.values():
                file.listed = True
        elif words[0] in self.files:
            self.apply_to(words[0], self.files[words[0]], kind, words)

    def apply_to(self, name, file, kind, words):
        if kind == "seek":
            self.places[name] = int(words[1])
        elif kind == "write":
            written = bytes.fromhex(words[1])[: int(words[3]) if "takes" in words else None]
            file.write(self.calls, self.places[name], written)
            self.places[name] += len(written)
        elif kind in ("sync", "sync-data"):
            self.synced = self.calls if kind == "sync" else self.synced
            file.sync()
        elif kind not in ("open", "stat", "read"):
            raise SystemExit(f"the model of a power cut has no call like this: {kind} {name}")

    def left(self, chance, kind):
        """What may be found of it by a file system of this kind: the content of each name."""
        moment = chance.randint(self.synced, self.calls)
        found = {name: file.left(chance, kind, moment) for name, file in self.files.items()}
        return {name: content for name, content in found.items() if content is not None}
