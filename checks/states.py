"""What the checks of the status share: servers in each state that the status tells of, which stay in it for as long as it takes to look."""

import contextlib
import json
import os
import struct
import subprocess
import threading
import time
import urllib.error
import urllib.request

from served import BLOCK_BYTES, FLUSH, REPLY_BYTES, SECONDS, WRITE, Failed, Server, connect, free_port, request

NAME = "r0"
IMAGE_BYTES = 64 << 20
BLOCKS = IMAGE_BYTES // BLOCK_BYTES
FAIL_IO = os.path.join(os.path.dirname(os.path.abspath(__file__)), "fail_io.c")
PEER, LOCAL_METADATA = "peer.img", "local.img.metadata"
LATE_MS = 30
# How many writes a client has under way.
DEPTH = 8


class Mirror(Server):
    """A server of a name with a status page, at a port of its own or at this one. `faults` are words of fail_io.c: its calls fail or are late
    from `begin_faults` on. With `has_data` the local image is full of ones: zeros would not be written to a new image."""

    def __init__(self, program, folder, *options, image_bytes=IMAGE_BYTES, has_data=False, page=None, **faults):
        self.program, self.run_folder, self.faults = program, os.path.join(folder, "run"), os.path.join(folder, "faults")
        self.page, self.client, self.load = page or free_port(), None, None
        library = os.path.join(folder, "fail_io.so")
        subprocess.run(["cc", "-shared", "-fPIC", "-O2", "-o", library, FAIL_IO, "-ldl"], check=True)
        if has_data:
            for name, byte in (("local.img", b"\1"), (PEER, b"\0")):
                with open(os.path.join(folder, name), "wb") as file:
                    file.write(byte * image_bytes)
            image_bytes = None
        words = {"LD_PRELOAD": library, "FAIL_WHILE": self.faults, "FAIL_EVERY": 1, **faults}
        super().__init__(program, folder, image_bytes, "--status", str(self.page), "--name", NAME, "--run-dir", self.run_folder, *options,
                         starter=["env", *(f"{name}={value}" for name, value in words.items())])

    def begin_faults(self):
        with open(self.faults, "w", encoding="ascii"):
            pass

    # The status page at a path, for a client that takes this kind. Where a slow disk keeps the status for too long (503), it is asked again.
    def told(self, path="/", kind="*/*"):
        asked = urllib.request.Request(f"http://127.0.0.1:{self.page}{path}", headers={"Accept": kind})
        until = time.monotonic() + SECONDS
        while True:
            try:
                with urllib.request.urlopen(asked, timeout=SECONDS) as answer:
                    return answer.read().decode()
            except urllib.error.HTTPError as fault:
                if fault.code != 503 or time.monotonic() > until:
                    raise

    def status(self):
        return json.loads(self.told("/status.json"))

    # Waits until the status is so.
    def until(self, is_so, what):
        until = time.monotonic() + SECONDS
        while time.monotonic() < until:
            try:
                if is_so(self.status()):
                    return
            except OSError:
                pass
            time.sleep(0.05)
        raise Failed(f"the server does not come to be {what}")

    # Writes these blocks, one after another.
    def write(self, *blocks):
        self.client = self.client or connect(self.port)
        for block in blocks:
            self.client.do(WRITE, block + 1, block * BLOCK_BYTES, BLOCK_BYTES, bytes([block % 251 + 1]) * BLOCK_BYTES)

    # Writes a block, or flushes, with any outcome.
    def try_write(self, block):
        self.client.send(request(WRITE, 0, block * BLOCK_BYTES, BLOCK_BYTES) + bytes(BLOCK_BYTES))
        self.client.error()

    def try_flush(self):
        self.client.send(request(FLUSH, 0, 0, 0))
        self.client.error()

    # Has a client that always has some writes under way, until the server is gone.
    def begin_load(self):
        self.load = threading.Thread(target=write_on, args=(self.port,))
        self.load.start()

    # Kills the server, if it has not ended.
    def kill(self):
        if self.child.poll() is None:
            super().kill()
        if self.load:
            self.load.join()


# Writes blocks of one extent over and over, some at a time, until the server is gone. They are no zeros, which would not be written to a
# new image.
def write_on(port):
    def write(block):
        client.send(request(WRITE, block, block * BLOCK_BYTES, BLOCK_BYTES) + b"\1" * BLOCK_BYTES)

    try:
        client = connect(port)
        for block in range(DEPTH):
            write(block)
        while True:
            write(struct.unpack(">IIQ", client.take(REPLY_BYTES))[2])
    except (OSError, Failed):
        pass


# A server that is killed if it does not come into its state, and at the end.
@contextlib.contextmanager
def in_state(state, program, folder):
    options, faults, bring = STATES[state]
    mirror = Mirror(program, folder, *options, **faults)
    try:
        bring(mirror)
        yield mirror
    finally:
        mirror.kill()


# Both images have the same data, and the link is up.
def bring_alike(mirror):
    mirror.write(*range(0, 100, 3))
    mirror.try_flush()
    mirror.until(is_at_rest, "at rest")


# The same, with writes under way, which the peer's disk does late.
def bring_busy(mirror):
    mirror.begin_faults()
    mirror.begin_load()
    mirror.until(lambda it: it["primary"]["open_writes"], "busy")


# All of the device is copied to a slow disk.
def bring_copying(mirror):
    mirror.until(lambda it: it["resync"] and it["resync"]["percent"] >= 10, "copying")
    mirror.begin_faults()


# The metadata of the local disk cannot be written, so the link closes and stays down, and blocks are written after that.
def bring_link_lost(mirror):
    mirror.write(*range(5))
    mirror.begin_faults()
    # An extent that is not entered.
    mirror.try_write(BLOCKS // 2)
    mirror.until(lambda it: it["primary"]["connection"] == "StandAlone", "without a link")
    mirror.write(*range(20))
    mirror.until(lambda it: it["primary"]["out_of_sync_kib"] >= 80, "out of sync")


# A sync of the peer's image has failed, and blocks are written after that.
def bring_left_out(mirror):
    mirror.write(1, 2, 3)
    mirror.begin_faults()
    mirror.try_flush()
    mirror.until(lambda it: it["peer_sync_failed"], "without the peer's disk")
    mirror.write(*range(40, 50))
    mirror.until(lambda it: it["primary"]["out_of_sync_kib"] >= 40, "out of sync")


# The options of a server, its faults and images, and what brings it into its state.
STATES = {
    "alike": ([], {}, bring_alike),
    "busy": ([], {"FAIL_FILE": PEER, "FAIL_LATE_MS": 5}, bring_busy),
    "copying": (["--first", "copy"], {"FAIL_FILE": PEER, "FAIL_LATE_MS": LATE_MS, "has_data": True}, bring_copying),
    "link lost": ([], {"FAIL_FILE": LOCAL_METADATA, "FAIL_WRITES": 1}, bring_link_lost),
    "peer left out": ([], {"FAIL_FILE": PEER, "FAIL_SYNCS": 1}, bring_left_out),
}


# The nodes are connected, and nothing is under way.
def is_at_rest(told):
    primary, secondary = told["primary"], told["secondary"]
    under_way = (primary["open_writes"], primary["unanswered_writes"], primary["open_epochs"], primary["out_of_sync_kib"], secondary["pending_items"])
    return primary["connection"] == "Connected" and not any(under_way)
