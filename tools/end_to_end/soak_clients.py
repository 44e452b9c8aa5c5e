"""Clients of `buildcache serve`: one that asks and reads answers, and those that misbehave, each beside one that works. soak.py
tells what is tried with them."""

import resource
import socket
import struct
import time

from cache_model import LIMIT, RESULT_LIMIT, Unlike
from shared.harness import Server, get, path_of, put

# How many connections are opened one after another.
CONNECTIONS = 10000


def request_text(method, path, body):
    return put(path, body) if method == "PUT" else get(path)


class Client:
    """One connection."""

    def __init__(self, port):
        self.port = port
        self.socket = None
        self.came = b""

    def connect(self):
        if self.socket is None:
            self.socket = socket.create_connection(("127.0.0.1", self.port), timeout=60)
            self.socket.setsockopt(socket.IPPROTO_TCP, socket.TCP_NODELAY, 1)
        return self.socket

    def close(self, reset=False):
        if self.socket is not None:
            if reset:
                self.socket.setsockopt(socket.SOL_SOCKET, socket.SO_LINGER, struct.pack("ii", 1, 0))
            self.socket.close()
            self.socket = None
            self.came = b""

    def ask(self, method, path, body):
        self.connect().sendall(request_text(method, path, body))
        return self.answer()

    def answer(self):
        """The next answer: its status, and its body."""
        while b"\r\n\r\n" not in self.came:
            self.came += self.piece()
        head, _, rest = self.came.partition(b"\r\n\r\n")
        lines = head.decode().split("\r\n")
        length = int(next(it for it in lines if it.startswith("Content-Length: "))[16:])
        while len(rest) < length:
            rest += self.piece()
        self.came = rest[length:]
        if "Connection: close" in lines:
            self.close()
        return int(lines[0].split(" ")[1]), rest[:length]

    def piece(self):
        if self.socket is None:
            raise ConnectionError("the server answers no more")
        piece = self.socket.recv(1 << 20)
        if not piece:
            raise ConnectionError("the server closed the connection")
        return piece


def server_of(program, idle=2, limit=LIMIT, result_limit=RESULT_LIMIT, more=()):
    return Server(program, None, limit, result_limit, ("--idle", str(idle), *more))


def is_alive(port):
    client = Client(port)
    try:
        return client.ask("GET", path_of(b""), b"") == (200, b"")
    finally:
        client.close()


def misbehave(program, rows):
    with server_of(program, more=("--at-once", "1")) as server:
        try_clients(server, rows)
        killed = Client(server.port)
        killed.connect().sendall(put(path_of(BODY), BODY)[:1000])
        server.end()
        killed.close()
    with server_of(program) as again:
        rows.tell("a server killed in a PUT starts again, and holds nothing",
                  Client(again.port).ask("GET", path_of(BODY), b"")[0] == 404)


BODY = bytes(1 << 20)


def tell_next(server, rows, name):
    """Tells whether the next client is answered, and after how long."""
    began = time.monotonic()
    rows.tell(f"{name} the next one is answered", is_alive(server.port))
    print(f"       after {time.monotonic() - began:.1f} s, with --idle 2")


def try_clients(server, rows):
    """Clients that misbehave, each with another one behind it."""
    silent = socket.create_connection(("127.0.0.1", server.port))
    tell_next(server, rows, "a silent client is dropped, and")
    silent.close()

    slow = socket.create_connection(("127.0.0.1", server.port))
    slow.settimeout(10)
    asked = get(path_of(b""))
    for byte in asked[:10]:
        slow.sendall(bytes([byte]))
        time.sleep(1)
    slow.sendall(asked[10:])
    rows.tell("a client that sends a byte a second is answered", slow.recv(100).startswith(b"HTTP/1.1 200 "))
    slow.close()

    full = Client(server.port)
    rows.tell("a blob of 1 MiB is put", full.ask("PUT", path_of(BODY), BODY)[0] == 200)
    deaf = full.connect()
    try:
        deaf.settimeout(1)
        for _ in range(64):
            deaf.sendall(get(path_of(BODY)))
    except OSError:
        pass
    tell_next(server, rows, "after a client that never reads")
    full.close()

    broken = Client(server.port)
    broken.connect().sendall(put(path_of(BODY), BODY)[:1000])
    broken.close(reset=True)
    tell_next(server, rows, "after a client that resets in a body")

    began = time.monotonic()
    rows.tell(f"{CONNECTIONS} connections one after another", all(is_alive(server.port) for _ in range(CONNECTIONS)))
    print(f"       in {time.monotonic() - began:.1f} s; memory {server.memory()} kB")


def slowest(port, seconds):
    """The longest that a client waits for one of its answers, in seconds; it asks for so long, and at least once."""
    client, longest, end = Client(port), 0.0, time.monotonic() + seconds
    while True:
        begun = time.monotonic()
        if client.ask("GET", path_of(b""), b"") != (200, b""):
            raise Unlike("the empty blob isn't answered")
        longest = max(longest, time.monotonic() - begun)
        if time.monotonic() > end:
            client.close()
            return longest


# What the server of a crowd may hold, in bytes: its blobs, twice the bound on what connections hold, and what is beyond that:
# the last answer, the shares of those that stop in a body, and what the allocator keeps.
CROWD_LIMIT = 64 << 20
CROWD_MEMORY = 800 << 20
LARGEST = 16 << 20


def crowd(program, rows):
    """Many clients that say nothing, or as little as does harm, beside one that works."""
    _, hard = resource.getrlimit(resource.RLIMIT_NOFILE)
    resource.setrlimit(resource.RLIMIT_NOFILE, (min(hard, 4096), hard))
    with server_of(program, 60, CROWD_LIMIT, more=("--at-once", "1024")) as server:
        silent = [socket.create_connection(("127.0.0.1", server.port)) for _ in range(1000)]
        longest = slowest(server.port, 3)
        rows.tell("beside 1,000 clients that say nothing one that works isn't slowed", longest < 1, longest)
        print(f"       it waited {1000 * longest:.1f} ms at most; memory {server.memory():,} kB")
        for it in silent:
            it.close()
    with server_of(program, 60, CROWD_LIMIT, more=("--at-once", "256")) as server:
        hostile = [take_nothing(server.port, it) for it in range(34)]
        hostile += [stop_in_body(server.port, it) for it in range(33)]
        hostile += [stop_in_head(server.port) for _ in range(33)]
        highest = server.memory()
        longest = slowest(server.port, 12)
        highest = max(highest, server.memory())
        rows.tell("100 hostile clients stay within 800 MiB", highest * 1024 <= CROWD_MEMORY, f"{highest:,} kB")
        rows.tell("and one that works waits for 10 s at most", longest < 10, longest)
        print(f"       memory {highest:,} kB at most; it waited {longest:.2f} s at most")
        for it in hostile:
            it.close()


def take_nothing(port, number):
    """Puts a blob of the greatest size, which is evicted soon, asks for it four times, and reads no more."""
    client, blob = Client(port), number.to_bytes(4, "big") * (LARGEST // 4)
    try:
        client.ask("PUT", path_of(blob), blob)
        client.connect().sendall(4 * get(path_of(blob)))
    except OSError:
        pass  # (it was let go)
    return client


def stop_in_body(port, number):
    """Sends all of a blob but its last byte."""
    client, blob = Client(port), (1000 + number).to_bytes(4, "big") * (LARGEST // 4)
    client.connect().settimeout(1)
    try:
        client.socket.sendall(put(path_of(blob), blob)[:-1])
    except OSError:
        pass  # (it isn't read any more)
    return client


def stop_in_head(port):
    client = Client(port)
    client.connect().sendall(b"GET /cas/")
    return client
