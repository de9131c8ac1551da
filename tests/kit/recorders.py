"""Live recorders: each writes samples to a file, and a sender follows it, while a script exchanges the server."""
import random
import subprocess
import threading
import time

from kit.processes import prepare_child

PCM = "48000,2,24"
PIECE = 28_800  # the bytes of a tenth of a second


class Recorder(threading.Thread):
    """Writes samples to a file ten times a second, until it is ended; `send` follows the file."""

    def __init__(self, folder, program, address, take):
        super().__init__(daemon=True)
        self.take = take
        self.path, self.until = folder / f"{take}.raw", folder / f"{take}.end"
        self.ending = threading.Event()
        self.path.touch()
        words = [program, "send", "--connect", address, "--name", take, "--file", self.path, "--pcm", PCM, "--follow"]
        streams = {"stdout": subprocess.DEVNULL, "stderr": subprocess.PIPE, "text": True}
        self.sender = subprocess.Popen([*words, "--until", self.until], preexec_fn=prepare_child, **streams)
        self.start()

    def run(self):
        chance = random.Random(self.take)
        with self.path.open("ab", buffering=0) as file:
            while not self.ending.wait(0.1):
                file.write(chance.randbytes(PIECE))
        self.until.touch()

    def end(self, longest):
        """Ends the recording, and waits for its sender; the status, and standard error."""
        self.ending.set()
        self.join()
        _, faults = self.sender.communicate(timeout=longest)
        return self.sender.returncode, faults

    def samples(self):
        return self.path.read_bytes()


def wait_until_sent(recorders, folder, more=1, longest=30):
    """Waits until the take's file of each recorder has grown by so many bytes."""
    files = [folder / f"{it.take}.wav" for it in recorders]
    wanted = [length_of(file) + more for file in files]
    until = time.monotonic() + longest
    while short := [it.name for it, length in zip(files, wanted) if length_of(it) < length]:
        if time.monotonic() > until:
            raise TimeoutError(f"these don't grow: {short}")
        time.sleep(0.05)


def length_of(path):
    return path.stat().st_size if path.exists() else 0
