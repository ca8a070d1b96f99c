"""The program as a server, and connections to it."""

import collections
import json
import os
import pathlib
import random
import signal
import socket
import struct
import subprocess
import time

from exchanges import HEAD, SECONDS, Failure, request

# Ports that the system gives no connection of its own, so that nobody connects to itself.
PORTS = range(20_000, 32_000)
# Between two trials to connect.
PAUSE = 0.002
# A socket with this option is reset where it is closed.
RESET = struct.pack("ii", 1, 0)

Reply = collections.namedtuple("Reply", "status text closes bytes")


def expect(reply, status, **wanted):
    """The text of a reply, which is to have this status and these keys with these values."""
    if reply.status != status or any(reply.text.get(key) != value for key, value in wanted.items()):
        raise Failure(f"{status} with {wanted} was due, and {reply.bytes} came")
    return reply.text


def free_port():
    for port in random.sample(PORTS, len(PORTS)):
        with socket.socket() as tried:
            if tried.connect_ex(("127.0.0.1", port)) != 0:
                return port
    raise Failure("no port is free")


class Connection:
    """A connection: requests, and their replies one after another, for each of which it waits so many seconds. With
    `room` it takes in no more bytes than that before they are read."""

    def __init__(self, port, room=None, seconds=SECONDS):
        self.socket, self.came = socket.socket(), b""
        if room:
            self.socket.setsockopt(socket.SOL_SOCKET, socket.SO_RCVBUF, room)
        self.socket.settimeout(seconds)
        try:
            self.socket.connect(("127.0.0.1", port))
            self.socket.setsockopt(socket.IPPROTO_TCP, socket.TCP_NODELAY, 1)
        except OSError:
            self.socket.close()
            raise

    def __enter__(self):
        return self

    def __exit__(self, *_):
        self.close()

    def send(self, *pieces):
        self.socket.sendall(b"".join(pieces))

    def take(self):
        """The next reply, where it came whole."""
        head = HEAD.match(self.came)
        end = head and head.end() + int(head[2])
        if not head or len(self.came) < end:
            return None
        text, whole, self.came = self.came[head.end():end], self.came[:end], self.came[end:]
        return Reply(int(head[1]), json.loads(text), b"\r\nconnection: close\r\n" in head[0], whole)

    def reply(self):
        while (reply := self.take()) is None:
            piece = self.socket.recv(65_536)
            if not piece:
                raise Failure(f"the connection ended, and in place of a reply came {self.came}")
            self.came += piece
        return reply

    def ask(self, person, method, path, given=None):
        self.send(request(method, path, person, given))
        return self.reply()

    def rest(self):
        """All that comes until the other side ends."""
        try:
            while piece := self.socket.recv(65_536):
                self.came += piece
        except ConnectionError:
            pass
        return self.came

    def end_sending(self):
        self.socket.shutdown(socket.SHUT_WR)

    def close(self):
        self.socket.close()

    def reset(self):
        """Closes without taking leave, as a client that is gone."""
        self.socket.setsockopt(socket.SOL_SOCKET, socket.SO_LINGER, RESET)
        self.close()


class Listening:
    """A program that listens on a port. It is killed where it is still there in the end."""

    def __init__(self, command, folder, port):
        self.port = port
        self.process = subprocess.Popen(list(map(str, command)), cwd=folder, stdin=subprocess.DEVNULL,
                                        stdout=subprocess.PIPE, stderr=subprocess.PIPE)

    def __enter__(self):
        return self

    def __exit__(self, *_):
        self.kill()

    def connect(self, **words):
        """A connection, as soon as there can be one."""
        end = time.monotonic() + SECONDS
        while True:
            try:
                return Connection(self.port, **words)
            except ConnectionRefusedError:
                self.check_stands()
                if time.monotonic() > end:
                    raise Failure(f"no connection in {SECONDS} seconds") from None
            time.sleep(PAUSE)

    def check_stands(self):
        if self.process.poll() is not None:
            raise Failure(f"the server ended with {self.process.returncode}: {self.process.stderr.read().decode()}")

    def processor_seconds(self):
        fields = pathlib.Path(f"/proc/{self.process.pid}/stat").read_text().rpartition(")")[2].split()
        return (int(fields[11]) + int(fields[12])) / os.sysconf("SC_CLK_TCK")

    def kill(self, signal_=signal.SIGKILL):
        self.process.send_signal(signal_)
        self.process.communicate()
        return self.process.returncode

    def ended(self):
        """How it ended by itself: the status, the output, and what it said on standard error."""
        output, said = self.process.communicate(timeout=SECONDS)
        return self.process.returncode, output.decode(), said.decode()


class Server(Listening):
    """`office serve` on a journal of a folder."""

    def __init__(self, program, folder, port, *words, workers=8, tick=100, journal="office"):
        super().__init__([program, "serve", "--journal", journal, "--port", port, "--workers", workers, "--tick", tick,
                          *words], folder, port)
