"""Shards and HAProxy, by the files of deploy/: servers with standbys, the balancer, certificates, senders of files."""
import socket
import ssl
import subprocess
import threading
import time

from kit import network
from kit.network import free_port, LOCAL, prepare_child, start, start_with_pipes, wait_until
from kit.recordings import data, fmt, Recording, riff
from kit.repository import ROOT
from kit.takes import ASK, BYE_FRAME, message

SHARDS = 4
SLOTS = 1024
DEPLOY = ROOT / "deploy"
INSTALLED = "/etc/haproxy/"  # where the files of deploy/ are once they are installed
RECORDER = "rec1"  # the common name of the certificate that is tried


class Shard:
    """A folder, with the address of its server and of its standby."""

    def __init__(self, folder):
        self.folder, self.port, self.standby_port = folder, free_port(), free_port()
        folder.mkdir()
        self.process = None

    def start(self, port=None):
        options = ("--journal", "--one-name", "--recorders", "200", "--until-stopped")
        words = ("serve", "--listen", f"{LOCAL}:{port or self.port}", "--folder", str(self.folder), *options)
        return start(*words, stdout=subprocess.DEVNULL, stderr=subprocess.DEVNULL)

    def serve(self):
        """Starts its server, and waits until that answers."""
        self.process = self.start()
        wait_until(lambda: answers(self.port), "a shard doesn't answer")

    def stop(self):
        self.process.terminate()
        self.process.wait(network.LONGEST_WAIT)

    def file(self, name):
        return self.folder / f"{name}.wav"


class Standby(threading.Thread):
    """Starts a shard's standby again and again, until one gets the folder's lock; and waits for its end.

    A child is killed when the thread that started it ends, so this one doesn't.
    """

    def __init__(self, shard):
        super().__init__(daemon=True)
        self.shard, self.tries = shard, 0

    def run(self):
        while True:
            process = self.shard.start(self.shard.standby_port)
            self.tries += 1
            process.wait()
            time.sleep(0.5)


def answers(port):
    """Whether a server answers an ask there."""
    try:
        with socket.create_connection((LOCAL, port), 1) as peer:
            peer.sendall(message("check_", 0, bytes([ASK])) + BYE_FRAME)
            return bool(peer.recv(64))
    except OSError:
        return False


class Balancer:
    """HAProxy with the configuration of deploy/, over these shards, the fifth of which has no slot yet."""

    def __init__(self, work, shards):
        self.work, self.port, self.tls_port = work, free_port(), free_port()
        plain = (DEPLOY / "haproxy.cfg").read_text().replace("127.0.0.1:4100", f"{LOCAL}:{self.port}")
        plain = plain.replace("/tmp/bwingest-haproxy.sock", str(work / "haproxy.sock"))
        for number, shard in enumerate(shards, 1):
            plain = plain.replace(f"127.0.0.1:411{number}", f"{LOCAL}:{shard.port}")
            plain = plain.replace(f"127.0.0.1:421{number}", f"{LOCAL}:{shard.standby_port}")
        plain += f"\nbackend shard5\n    server here {LOCAL}:{shards[SHARDS].port}\n"
        tls = (DEPLOY / "haproxy-tls.cfg").read_text().replace("bind :7443", f"bind {LOCAL}:{self.tls_port}")
        for name, text in (("haproxy.cfg", plain), ("haproxy-tls.cfg", tls)):
            (work / name).write_text(text.replace(INSTALLED, f"{work}/"))
        slots = subprocess.run([DEPLOY / "make_slots", str(SHARDS)], check=True, capture_output=True).stdout
        (work / "slots.map").write_bytes(slots)
        names = (LOCAL, RECORDER, "rec2")
        subprocess.run([DEPLOY / "make_certificates", work / "certificates", *names], check=True)
        words = ["haproxy", "-f", work / "haproxy.cfg", "-f", work / "haproxy-tls.cfg"]
        network.STARTED.append(subprocess.Popen(words, preexec_fn=prepare_child, stderr=subprocess.DEVNULL))
        wait_until(lambda: answers(self.port), "the balancer doesn't answer")

    def certificate(self, name):
        return str(self.work / "certificates" / f"{name}.pem")

    def set_slot(self, slot, shard):
        """Gives a slot to a shard, while it runs and in the file; what HAProxy answers."""
        lines = (self.work / "slots.map").read_text().splitlines()
        lines[slot] = f"{slot} {shard}"
        (self.work / "slots.map").write_text("\n".join(lines) + "\n")
        with socket.socket(socket.AF_UNIX) as peer:
            peer.connect(str(self.work / "haproxy.sock"))
            peer.sendall(f"set map {self.work}/slots.map {slot} {shard}\n".encode())
            return peer.recv(65_536).decode().strip()

    def connect(self, name):
        """A connection by TLS, with the certificate of this name, or none."""
        context = ssl.create_default_context(cafile=self.work / "certificates/ca.crt")
        if name:
            context.load_cert_chain(self.certificate(name))
        peer = socket.create_connection((LOCAL, self.tls_port), network.LONGEST_WAIT)
        return context.wrap_socket(peer, server_hostname=LOCAL)


class Tunnel:
    """socat, which takes connections on 127.0.0.1 and passes them on by TLS, as beside a recorder."""

    def __init__(self, balancer, name):
        self.port = free_port()
        there = f"OPENSSL:{LOCAL}:{balancer.tls_port},cert={balancer.certificate(name)}"
        there += f",cafile={balancer.work}/certificates/ca.crt,verify=1"
        words = ["socat", f"TCP-LISTEN:{self.port},bind={LOCAL},fork,reuseaddr", there]
        network.STARTED.append(subprocess.Popen(words, preexec_fn=prepare_child, stderr=subprocess.DEVNULL))


def recording_of(number, frames=100_000):
    """A recording of some 400 KB that differs from each other."""
    samples = b"".join((number * 7_919 + at).to_bytes(4, "little") for at in range(frames + 13 * number))
    return Recording(channels=2, bits=16, samples=samples)


def send_file(work, port, name, recording):
    """Starts a sender of this recording under this name."""
    file = work / f"{name}.sent.wav"
    file.write_bytes(riff(fmt(recording), data(recording.samples)))
    words = ("send", "--connect", f"{LOCAL}:{port}", "--name", name, "--file", str(file), "--fruitless", "20")
    return start_with_pipes(*words)


def samples_in(file):
    content = file.read_bytes()
    at = content.index(b"data")
    return content[at + 8 : at + 8 + int.from_bytes(content[at + 4 : at + 8], "little")]


def slot_of(name):
    """The slot of a name, by the hash of deploy/simulate_slots, which is a script without an ending."""
    space = {"__name__": "slots"}
    exec(compile((DEPLOY / "simulate_slots").read_text(), "simulate_slots", "exec"), space)
    return space["xxh32"](name.encode(), 1) % SLOTS
