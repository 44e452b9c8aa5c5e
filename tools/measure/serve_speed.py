#!/usr/bin/env python3
"""Measures `buildcache serve` beside nginx: serve_speed.py PROGRAM [SECONDS [CONNECTIONS]]

GET and PUT of blobs of four sizes over one keep-alive connection each, in turns of a tenth of SECONDS (2) for each
size and kind, so that both meet the same machine. nginx serves WebDAV from memory (/dev/shm). Each PUT is of a blob
that the server doesn't hold yet. It prints requests a second, the best turn of each.

With CONNECTIONS it measures GETs by `wrk` over that many connections at once, of blobs of three sizes, in three turns of
SECONDS: of `serve --at-once`, of nginx, and over one connection also of `serve --at-once 1`. It needs nginx, with CONNECTIONS
also wrk, and the built program (crates/buildcache/out/buildcache).
"""

import hashlib
import os
import re
import socket
import subprocess
import time

from shared.command_line import need, numbers_of, program_at, words_of
from shared.harness import LOCAL, Nginx, Server, get, path_of, put

SIZES = [1 << 10, 64 << 10, 1 << 20, 16 << 20]
TURNS = 10

# Over many connections.
WRK_SIZES = SIZES[:3]
WRK_TURNS = 3


class Client:
    """One connection, with requests one after another."""

    def __init__(self, port):
        self.socket = socket.create_connection(("127.0.0.1", port))
        self.socket.setsockopt(socket.IPPROTO_TCP, socket.TCP_NODELAY, 1)
        self.buffer = bytearray(1 << 20)

    def ask(self, request, statuses):
        """Sends a request, and reads its answer whole."""
        self.socket.sendall(request)
        head = b""
        while b"\r\n\r\n" not in head:
            piece = self.socket.recv(65536)
            if not piece:
                raise SystemExit("serve_speed: the server closed the connection")
            head += piece
        head, _, body = head.partition(b"\r\n\r\n")
        if not any(head.startswith(b"HTTP/1.1 %d" % it) for it in statuses):
            raise SystemExit(f"serve_speed: {head.decode()}")
        lengths = [it[15:] for it in head.lower().split(b"\r\n") if it.startswith(b"content-length:")]
        left = int(lengths[0] if lengths else 0) - len(body)
        while left:
            left -= self.socket.recv_into(self.buffer, min(left, len(self.buffer)))


def put_text(blob):
    return put(path_of(blob), blob)


class Blobs:
    """Blobs of a size, each another one."""

    def __init__(self, size):
        self.body, self.count = os.urandom(size - 8), 0

    def next(self):
        self.count += 1
        return self.body + self.count.to_bytes(8, "big")


def turn(client, make, seconds, statuses):
    """Requests a second over a turn. Texts are made before the clock runs, as many as a turn may need."""
    texts, spent, done = [], 0.0, 0
    while spent < seconds:
        texts = [make() for _ in range(max(1, min(64, (16 << 20) // len(texts[0]))) if texts else 1)]
        begun = time.perf_counter()
        for text in texts:
            client.ask(text, statuses)
        spent += time.perf_counter() - begun
        done += len(texts)
    return done / spent


def hashing(size):
    """How many blobs of a size Python's hashlib (OpenSSL) hashes a second, for comparison."""
    blob, begun, done = os.urandom(size), time.perf_counter(), 0
    while time.perf_counter() - begun < 0.3:
        hashlib.sha256(blob).digest()
        done += 1
    return done / (time.perf_counter() - begun)


def measure(clients, seconds, store):
    for size in SIZES:
        blobs, best = Blobs(size), {}
        held = blobs.next()
        for client in clients.values():
            client.ask(put_text(held), (200, 201, 204))
        for _ in range(TURNS):
            for name, client in clients.items():
                for kind, make in (("GET", lambda: get(path_of(held))), ("PUT", lambda: put_text(blobs.next()))):
                    rate = turn(client, make, seconds / TURNS, (200, 201, 204))
                    best[name, kind] = max(rate, best.get((name, kind), 0))
                    client.ask(put_text(held), (200, 201, 204))
        yield size, best, hashing(size)
        for name in os.listdir(f"{store}/cas"):
            os.remove(f"{store}/cas/{name}")


def wrk(port, blob, seconds, connections):
    """Requests a second of GETs of a blob, each answered with 200."""
    threads = min(2, connections)
    words = ["wrk", f"-t{threads}", f"-c{connections}", f"-d{max(1, round(seconds))}s", "--timeout", "10s", f"http://{LOCAL}:{port}{path_of(blob)}"]
    told = subprocess.run(words, capture_output=True, text=True, timeout=seconds + 60, check=True).stdout
    if "Non-2xx" in told or "Socket errors" in told:
        raise SystemExit(f"serve_speed: {told}")
    return float(re.search(r"Requests/sec: +([0-9.]+)", told)[1])


def measure_many(ports, seconds, connections):
    for size in WRK_SIZES:
        blob, best = os.urandom(size), {}
        for port in ports.values():
            client = Client(port)
            client.ask(put_text(blob), (200, 201, 204))
            client.socket.close()
        for _ in range(WRK_TURNS):
            for name, port in ports.items():
                best[name] = max(wrk(port, blob, seconds, connections), best.get(name, 0))
        yield size, best


def main_many(program, seconds, connections):
    one_at_a_time = ("--at-once", "1")
    with Server(program, more=("--at-once", str(connections + 8))) as many, Server(program, more=one_at_a_time) as one, \
            Nginx("/dev/shm") as nginx:
        ports = {"serve --at-once": many.port, "nginx": nginx.port, **({"serve": one.port} if connections == 1 else {})}
        print(f"| Bytes, {connections} connections |" + "|".join(f" GET, {it} " for it in ports) + "|\n|" + "---|" * (len(ports) + 1))
        for size, best in measure_many(ports, seconds, connections):
            print(f"| {size:,} |" + "|".join(f" {best[it]:,.0f} " for it in ports) + "|", flush=True)
        print(f"memory of serve --at-once: {many.memory():,} kB")


def main():
    program, *seconds = words_of(__doc__, 1, 3)
    program, seconds = program_at(program), numbers_of(seconds)
    need("nginx", *["wrk"] * (len(seconds) > 1))
    if len(seconds) > 1:
        main_many(program, *seconds)
        return
    with Server(program, more=("--at-once", "1")) as serve, Nginx("/dev/shm") as nginx:
        clients = {"serve": Client(serve.port), "nginx": Client(nginx.port)}
        print("| Bytes | GET, serve | GET, nginx | PUT, serve | PUT, nginx | SHA-256 (OpenSSL) |\n|---|---|---|---|---|---|")
        for size, best, hashed in measure(clients, seconds[0] if seconds else 2, f"{nginx.folder}/store"):
            cells = [best["serve", "GET"], best["nginx", "GET"], best["serve", "PUT"], best["nginx", "PUT"], hashed]
            print(f"| {size:,} |" + "|".join(f" {it:,.0f} " for it in cells) + "|", flush=True)


if __name__ == "__main__":
    main()
