"""What the checks of `drbdpair serve` share: a server over two images, and a client of the network block device protocol."""

import filecmp
import os
import re
import shutil
import socket
import struct
import subprocess
import sys

PROGRAM = "crates/drbdpair/out/drbdpair"
BLOCK_BYTES = 4096
# How long a client waits for the server, and the server for its end.
SECONDS = 30

READ, WRITE, DISCONNECT, FLUSH, TRIM, WRITE_ZEROES, BLOCK_STATUS = 0, 1, 2, 3, 4, 6, 7
GREETING_BYTES = 18
REPLY_BYTES = 16
# Fixed newstyle and no zeros, and GO for the export without a name.
FLAGS = struct.pack(">I", 3)
GO = struct.pack(">QIIIH", 0x49484156454F5054, 7, 6, 0, 0)
ACKNOWLEDGED = 1
# STRUCTURED_REPLY, and SET_META_CONTEXT with the one context for the export without a name.
STRUCTURED = struct.pack(">QII", 0x49484156454F5054, 8, 0)
ALLOCATION = b"base:allocation"
SET_CONTEXT = struct.pack(">QIIIII", 0x49484156454F5054, 10, 12 + len(ALLOCATION), 0, 1, len(ALLOCATION)) + ALLOCATION
# What a chunk tells.
DATA_CHUNK, HOLE_CHUNK, STATUS_CHUNK = 1, 2, 5
# A line of the log, which has a date before its event.
LOGGED = re.compile(r"(?m)^\d{4}-\d\d-\d\dT\d\d:\d\d:\d\dZ (.*)\n")
# What a first start says, after the server listens.
FIRST_START = re.compile(r"(?m)^(both images get metadata|\d+ blocks differ, and are copied|the images are taken as alike|all of the local image is copied).*\n")


class Failed(Exception):
    """Something is not as it should be."""


class Misused(Exception):
    """A check cannot be run so."""


class Server:
    """A server over two images, new ones if `image_bytes` is given, which another program may start. `said` are the lines that it wrote
    before it listened, and `log`, at its end, what it then told of its events."""

    def __init__(self, program, folder, image_bytes, *options, starter=()):
        self.images = [os.path.join(folder, name) for name in ("local.img", "peer.img")]
        if image_bytes is not None:
            for image in self.images:
                with open(image, "wb") as file:
                    file.truncate(image_bytes)
        self.port = free_port()
        self.child = subprocess.Popen(
            [*starter, program, "serve", "--local", self.images[0], "--peer", self.images[1], "--listen", f"127.0.0.1:{self.port}", *options],
            stdin=subprocess.PIPE, stdout=subprocess.PIPE, stderr=subprocess.PIPE, text=True)
        self.said, self.log = [], []
        line = self.child.stderr.readline()
        while line and "is an export of" not in line:
            self.said.append(line.rstrip("\n"))
            line = self.child.stderr.readline()
        if not line:
            raise Failed(f"the server did not start: {self.said!r}")

    # Kills the server.
    def kill(self):
        self.child.kill()
        self.child.communicate()

    # Ends the server. Returns its status, its output and its messages, without the lines of a first start and of the log.
    def end(self, seconds=SECONDS):
        try:
            out, err = self.child.communicate("quit\n", timeout=seconds)
        except subprocess.TimeoutExpired:
            self.child.kill()
            raise Failed(f"the server did not end within {seconds} s") from None
        self.log = LOGGED.findall(err)
        return self.child.returncode, out, FIRST_START.sub("", LOGGED.sub("", err))

    # Ends the server, and sees that all is done, its three lines are right and both images are equal. Returns how many writes there
    # were.
    def end_done(self, seconds=SECONDS):
        status, out, err = self.end(seconds)
        lines = out.split("\n")
        completed = lines[0].removeprefix("completed ")
        if status != 0 or lines[1:] != [f"settled {completed}", "unmarked 0", ""]:
            raise Failed(f"status {status}, {out!r}, {err!r}")
        if not filecmp.cmp(*self.images, shallow=False):
            raise Failed("the images differ")
        return int(completed)

    # The most memory that it had, in KiB.
    def memory_kib(self):
        with open(f"/proc/{self.child.pid}/status", encoding="ascii") as lines:
            for line in lines:
                if line.startswith("VmHWM:"):
                    return int(line.split()[1])
        return 0


class Client:
    """A connection to a server, in its handshake. With `socket_bytes` its socket takes that many bytes before they are read."""

    def __init__(self, port, seconds=SECONDS, socket_bytes=None):
        self.stream = socket.socket()
        if socket_bytes:
            self.stream.setsockopt(socket.SOL_SOCKET, socket.SO_RCVBUF, socket_bytes)
        self.stream.settimeout(seconds)
        self.stream.connect(("127.0.0.1", port))

    # Takes the greeting, and chooses the export, after these options.
    def choose(self, *options):
        self.take(GREETING_BYTES)
        self.send(FLAGS)
        for option in (*options, GO):
            self.send(option)
            kind = 0
            while kind != ACKNOWLEDGED:
                _, _, kind, length = struct.unpack(">QIII", self.take(20))
                if kind >> 31:
                    raise Failed(f"an option is refused with {kind:#x}")
                self.take(length)
        return self

    def send(self, data):
        self.stream.sendall(data)

    # Takes the next `count` bytes.
    def take(self, count):
        came = bytearray()
        while len(came) < count:
            more = self.stream.recv(count - len(came))
            if not more:
                raise Failed("the server closed the connection")
            came += more
        return bytes(came)

    # Makes a request, and takes the data of its reply, which has no error.
    def do(self, kind, cookie, offset, length, data=b""):
        self.send(request(kind, cookie, offset, length) + data)
        self.replied(cookie)
        return self.take(length) if kind == READ else b""

    # The next reply is one chunk with this cookie. Returns what it tells, and its data.
    def chunk(self, cookie):
        magic, flags, kind, found, length = struct.unpack(">IHHQI", self.take(20))
        if (magic, flags, found) != (0x668E33EF, 1, cookie):
            raise Failed(f"the chunk for {cookie} has the magic number {magic:#x}, the flags {flags} and the cookie {found}")
        return kind, self.take(length)

    # Asks what these bytes are. Returns extents, each by its length and whether it is zeros, as many as it takes for all.
    def extents(self, cookie, offset, length):
        found = []
        while length:
            self.send(request(BLOCK_STATUS, cookie, offset, length))
            kind, data = self.chunk(cookie)
            if kind != STATUS_CHUNK:
                raise Failed(f"a BLOCK_STATUS is answered with {kind}: {data.hex()}")
            for at in range(4, len(data), 8):
                count, flags = struct.unpack_from(">II", data, at)
                found.append((count, flags == 2))
                offset, length = offset + count, length - count
        return found

    # The next reply has this cookie and no error.
    def replied(self, cookie):
        reply = self.take(REPLY_BYTES)
        if reply != struct.pack(">IIQ", 0x67446698, 0, cookie):
            raise Failed(f"the reply to {cookie} is {reply.hex()}")

    # The error of the next reply, 0 for none.
    def error(self):
        return struct.unpack(">IIQ", self.take(REPLY_BYTES))[1]

    def disconnect(self):
        self.send(request(DISCONNECT, 0, 0, 0))
        self.stream.close()


# A client that has chosen the export.
def connect(port, seconds=SECONDS, socket_bytes=None):
    return Client(port, seconds, socket_bytes).choose()


# One that has structured replies, too, and may ask where there are data.
def connect_structured(port, seconds=SECONDS):
    return Client(port, seconds).choose(STRUCTURED, SET_CONTEXT)


def request(kind, cookie, offset, length):
    return struct.pack(">IHHQQI", 0x25609513, 0, kind, cookie, offset, length)


# A port at which nobody listens.
def free_port():
    with socket.create_server(("127.0.0.1", 0)) as listener:
        return listener.getsockname()[1]


# The program that a check is to try, if it is there.
def program_at(words):
    program = os.path.abspath(words[0] if words else PROGRAM)
    if not os.path.isfile(program):
        raise Misused(f"there is no {program}: build it with rt run in crates/drbdpair")
    return program


# Checks that these programs are there, each with the package of Debian that has it.
def are_there(packages):
    missing = [f"there is no {name}: apt-get install {package}" for name, package in packages.items() if not shutil.which(name)]
    if missing:
        raise Misused("\n".join(missing))


# Runs a check, and ends with its status: 2 with a line on standard error if it cannot be run.
def run(check):
    try:
        sys.exit(check(sys.argv[1:]))
    except Misused as fault:
        print(fault, file=sys.stderr)
        sys.exit(2)
