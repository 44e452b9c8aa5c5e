#!/usr/bin/env python3
"""Tries the program as a server, over sockets: server_rows.py PROGRAM

The streams of bytes and their exact answers, whole and byte by byte, also where room is short; heads that are refused, and
which of them close the connection; the prefix that stands before the paths; many connections at once, of clients that are
slow, deaf, silent or gone beside one that works, or wait until others hold less; a server that is stopped and goes on, and one
that no number of connections ends; the line on a terminal; an address that is in use, or was a moment before; and more
connections than the server may have files, and those that it lets go as it accepts them. It prints a line for each row, and ends
with status 1 where one failed. Nothing outside this machine is asked.
"""

import os
import pty
import re
import resource
import select
import signal
import socket
import struct
import subprocess
import tempfile
import threading
import time

from server_streams import ABSENT, ASKS, DIGITS, DONE, FEED, FULL, LARGEST, LEFT_OPEN
from server_streams import NINE, NO_BYTES, REFUSED, SHORT, STREAMS, found, head, refused
from shared import harness
from shared.harness import Server, get, is_error, is_slow, path_of, put, within
from shared.messages import Digest
from shared.rows import try_rows

LIMITS = ["--limit", "1", "--result-limit", "1"]


def server(program, connections, *more, errors=subprocess.DEVNULL):
    return Server(program, connections, 1000, 1000, more, errors)


def talk(port, stream, piece):
    """All that a server answers to a stream that comes in pieces of that length, and then ends."""
    with socket.create_connection(("127.0.0.1", port), timeout=within(10)) as it:
        it.setsockopt(socket.IPPROTO_TCP, socket.TCP_NODELAY, 1)
        for at in range(0, len(stream), piece):
            it.sendall(stream[at : at + piece])
        it.shutdown(socket.SHUT_WR)
        answers = b""
        try:
            while data := it.recv(65536):
                answers += data
        except OSError as fault:
            answers += f" and then: {fault}".encode()
        return answers


def try_streams(rows, program):
    for name, (stream, answers) in STREAMS.items():
        for piece in (len(stream), 1):
            for more in ((), ("--at-once", "4")):
                with server(program, 1, *more) as it:
                    seen = talk(it.port, stream, piece)
                rows.tell(" ".join([f"{name}, in pieces of {piece}", *more]), seen == answers, seen)
    for name, (limit, result_limit, stream, answers) in SHORT.items():
        with Server(program, 1, limit, result_limit) as it:
            seen = talk(it.port, stream, len(stream))
        rows.tell(f"{name}, limits {limit} and {result_limit}", seen == answers, seen)
    with server(program, 1, "--prefix", "/x") as it:
        seen = talk(it.port, get(f"/x/cas/{NO_BYTES}") + get(f"/cas/{NO_BYTES}"), 65536)
    rows.tell("only what stands under the prefix is served", seen == DONE + ABSENT, seen)
    for prefix in ("/", "/a/", "a"):
        told = harness.run(program, "serve", "--listen", "127.0.0.1:0", *LIMITS, "--prefix", prefix)
        rows.tell(f"{prefix} is no prefix", (told.returncode, told.stdout) == (2, b"") and is_error(told.stderr), told)


def try_heads(rows, program):
    """Each with a request after it, which is answered only where the connection stays open."""
    again = get(f"/cas/{NO_BYTES}")
    for more in (("--at-once", "1"), ("--at-once", "4")):
        with server(program, None, *more) as it:
            for name, (request, answer) in REFUSED.items():
                seen = talk(it.port, request + again, 1 << 20)
                rows.tell(" ".join([f"{name}: {answer[0]}, and closed", *more]), seen == refused(*answer), seen)
            for name, (request, answer) in LEFT_OPEN.items():
                seen = talk(it.port, request + again, 1 << 20)
                rows.tell(" ".join([f"{name}: answered, and left open", *more]), seen == answer + found(b""), seen)
            seen = talk(it.port, head(ASKS, "Connection: a, Close ,b") + again, 1 << 20)
            rows.tell(" ".join(["Connection: close", *more]), seen == refused("200 OK"), seen)


# How long a client that works may wait for an answer beside others, in seconds. A machine that is busy may stand still for one.
SOON = 2.5

# A blob that no socket's buffers hold four times.
LARGE = bytes(8 << 20)
LARGE_PATH = f"/cas/{Digest.of(LARGE).hash}"


def connect(port):
    it = socket.create_connection(("127.0.0.1", port), timeout=within(20))
    it.setsockopt(socket.IPPROTO_TCP, socket.TCP_NODELAY, 1)
    return it


def receive(stream, count):
    """So many bytes of a stream, or as many as come before its end, or for so long."""
    came = bytearray()
    try:
        while len(came) < count and (piece := stream.recv(min(count - len(came), 1 << 20))):
            came += piece
    except OSError as fault:
        return bytes(came) + f" and then: {fault}".encode()
    return bytes(came)


def ask(stream, request, answer):
    """Whether the request gets this answer."""
    try:
        stream.sendall(request)
    except OSError:
        return False
    return receive(stream, len(answer)) == answer


def slowest(port, seconds):
    """The longest that a client waits for one of its answers, in seconds; it asks for so long. One wrong answer is for ever."""
    longest, end = 0.0, time.monotonic() + seconds
    with connect(port) as it:
        while time.monotonic() < end:
            for request, answer in ((put(f"/cas/{DIGITS}", NINE), DONE), (get(f"/cas/{DIGITS}"), found(NINE))):
                begun = time.monotonic()
                if not ask(it, request, answer):
                    return float("inf")
                longest = max(longest, time.monotonic() - begun)
    return longest


def reset(stream):
    stream.setsockopt(socket.SOL_SOCKET, socket.SO_LINGER, struct.pack("ii", 1, 0))
    stream.close()


def many(program, *more, connections=None, limit=1 << 26, errors=subprocess.DEVNULL):
    return Server(program, connections, limit, 1000, ("--at-once", "32", *more), errors)


def try_mixed(rows, program):
    """Eight connections whose pipelined requests come half by half, in turn."""
    with many(program, connections=8) as it:
        streams = [connect(it.port) for _ in range(8)]
        blobs = [bytes([number]) * 1000 for number in range(8)]
        texts = [put(path, blob) + get(path) + get(f"/cas/{FEED}") + get(path)
                 for path, blob in ((f"/cas/{Digest.of(blob).hash}", blob) for blob in blobs)]
        for half in (slice(None, 600), slice(600, None)):
            for stream, text in zip(streams, texts):
                stream.sendall(text[half])
        wanted = [DONE + found(blob) + ABSENT + found(blob) for blob in blobs]
        seen = [receive(stream, len(want)) for stream, want in zip(streams, wanted)]
        rows.tell("eight connections at once: each gets its own answers, in order", seen == wanted, seen)
        for stream in streams:
            stream.close()
        rows.tell("after these eight serve ends with status 0", it.wait() == 0, it.process.returncode)


def try_neighbours(rows, program):
    """Clients of every kind, each beside one that works."""
    with many(program) as it:
        silent = [connect(it.port) for _ in range(20)]
        longest = slowest(it.port, 0.5)
        rows.tell("a client that works doesn't wait for 20 that say nothing", longest < within(SOON), longest)
        answers = []
        slow = connect(it.port)

        def send_slowly():
            for byte in get(f"/cas/{DIGITS}")[:3]:
                slow.sendall(bytes([byte]))
                time.sleep(1)
            slow.sendall(get(f"/cas/{DIGITS}")[3:])
            answers.append(receive(slow, len(found(NINE))))

        sender = threading.Thread(target=send_slowly, daemon=True)
        sender.start()
        longest = slowest(it.port, 2)
        rows.tell("nor for one that sends a byte a second", longest < within(SOON), longest)
        sender.join(within(20))
        rows.tell("which is answered too", answers == [found(NINE)], answers)
        for stream in [slow, *silent]:
            stream.close()
        try_deaf(rows, it.port)
        try_gone(rows, it.port)


def try_deaf(rows, port):
    with connect(port) as deaf:
        rows.tell("a blob of 8 MiB is put", ask(deaf, put(LARGE_PATH, LARGE), DONE))
        deaf.sendall(4 * get(LARGE_PATH))
        time.sleep(0.2)
        longest = slowest(port, 0.5)
        rows.tell("nor for one that asks for 32 MiB and takes nothing", longest < within(SOON), longest)
        want = found(LARGE)
        right = all([receive(deaf, len(want)) == want for _ in range(4)])
        rows.tell("which gets its four answers whole once it reads", right)


def try_gone(rows, port):
    broken = connect(port)
    broken.sendall(put(f"/cas/{FEED}", b"\n")[:-1])
    time.sleep(0.2)
    reset(broken)
    longest = slowest(port, 0.5)
    rows.tell("nor for one that resets in the middle of a body", longest < within(SOON), longest)
    with connect(port) as it:
        rows.tell("whose blob isn't there", ask(it, get(f"/cas/{FEED}"), ABSENT))
    with connect(port) as refused, connect(port) as other:
        refused.sendall(b"PUT /cas/x HTTP/1.1\r\nHost: x\r\nTransfer-Encoding: chunked\r\n\r\n" + put(f"/cas/{FEED}", b"\n"))
        head, _, more = receive(refused, 1 << 16).partition(b"\r\n\r\n")
        right = head.startswith(b"HTTP/1.1 501 ") and b"Connection: close" in head and more == b""
        rows.tell("after a request that closes its connection nothing more is answered there", right, (head, more))
        rows.tell("nor done", ask(other, get(f"/cas/{FEED}"), ABSENT))


def try_places(rows, program):
    """The third of two at once waits until one has ended."""
    with server(program, 3, "--at-once", "2") as it:
        streams = [connect(it.port) for _ in range(3)]
        request, answer = get(f"/cas/{NO_BYTES}"), found(b"")
        rows.tell("two at once are answered", all(ask(stream, request, answer) for stream in streams[:2]))
        streams[2].sendall(request)
        streams[2].settimeout(0.5)
        early = receive(streams[2], len(answer))
        rows.tell("the third isn't, while both are open", early == b" and then: timed out", early)
        streams[0].close()
        streams[2].settimeout(within(20))
        late = receive(streams[2], len(answer))
        rows.tell("but once one of them has ended", late == answer, late)
        streams[1].close()
        streams[2].close()
        rows.tell("then serve ends with status 0", it.wait() == 0, it.process.returncode)


def try_silence(rows, program):
    """--idle is for each connection."""
    with many(program, "--idle", "1") as it, connect(it.port) as silent:
        silent.settimeout(within(10))
        begun = time.monotonic()
        ends = []
        waiter = threading.Thread(target=lambda: ends.append((receive(silent, 1), time.monotonic() - begun)), daemon=True)
        waiter.start()
        longest = slowest(it.port, 3)
        waiter.join(within(20))
        right = bool(ends) and ends[0][0] == b"" and 0.5 < ends[0][1] < within(10) and longest < within(SOON)
        rows.tell("one that is silent for --idle 1 is let go, and one that works isn't", right, (ends, longest))


def begin_bodies(port, missing):
    """Sixteen clients with a body of the greatest length each, which hold together as much as requests may; so many bytes of each
    are missing. They come side by side, so that none is silent."""
    bodies = [bytes([number]) * LARGEST for number in range(16)]
    texts = [put(path_of(body), body) for body in bodies]
    streams = [connect(port) for _ in texts]
    end, piece = len(texts[0]) - missing, 1 << 19
    for at in range(0, end, piece):
        for stream, text in zip(streams, texts):
            stream.sendall(text[at : min(at + piece, end)])
    return [(stream, text[end:]) for stream, text in zip(streams, texts)]


def try_waiting(rows, program):
    """Requests that hold together as much as they may."""
    if is_slow():
        print("left out, since this program hashes slowly: requests of 256 MiB that hold as much as they may")
        return
    with many(program) as it:
        clients = begin_bodies(it.port, 1)
        time.sleep(0.5)
        with connect(it.port) as small:
            small.sendall(get(f"/cas/{NO_BYTES}")[:20])
            time.sleep(0.2)
            right = [ask(stream, rest, DONE) for stream, rest in clients]
        rows.tell("where requests hold all that they may, none waits for one that stops in its head", all(right), right)
    # Where this machine stands still for some seconds, our own bytes come too late: once more then, with more time.
    for idle in (3, 12):
        right = wait_behind(program, idle)
        if all(right):
            break
    rows.tell("those that wait for one of them for longer than --idle go on behind it", all(right), right)


def wait_behind(program, idle):
    """Of a slow client, and of those that wait for it for longer than so many seconds, whether each gets its answer."""
    body = bytes(12 << 20)
    text = put(path_of(body), body)
    end, pieces = len(text) - (3 << 20), 10 * idle + 10
    with many(program, "--idle", str(idle)) as it:
        clients = begin_bodies(it.port, 1 << 19)
        time.sleep(0.5)
        with connect(it.port) as slow:
            slow.sendall(text[:end])
            time.sleep(0.5)
            try:
                for stream, rest in clients:
                    stream.sendall(rest[:1000])
            except OSError:
                return [False]
            for at in range(end, end + pieces):
                slow.sendall(text[at : at + 1])
                time.sleep(0.1)
            right = [ask(slow, text[end + pieces :], DONE)]
            return right + [ask(stream, rest[1000:], DONE) for stream, rest in clients]


def try_stopped(rows, program):
    """A server that is stopped, as by Ctrl-Z, and goes on."""
    request = put(f"/cas/{DIGITS}", NINE)
    for more in ((), ("--at-once", "4")):
        with server(program, 1, *more) as it, connect(it.port) as stream:
            stream.sendall(request[:-1])
            for number in (signal.SIGSTOP, signal.SIGCONT):
                time.sleep(0.2)
                it.process.send_signal(number)
            time.sleep(0.2)
            right = ask(stream, request[-1:], DONE)
            rows.tell(" ".join(["a server that is stopped and goes on keeps its connection", *more]), right)


def read_until(stream, end, seconds=5):
    """What comes of a descriptor, to this text or for so long."""
    came, late = b"", time.monotonic() + within(seconds)
    while end not in came and (left := late - time.monotonic()) > 0:
        if select.select([stream], [], [], left)[0]:
            came += os.read(stream, 1 << 16)
    return came


def try_line(rows, program):
    """The line on a terminal, which says how many are open, and the hits so far."""
    ours, theirs = pty.openpty()
    with many(program, connections=2, errors=theirs) as it:
        streams = [connect(it.port) for _ in range(2)]
        line = b"\r2 open, 0 hits\x1b[K"
        seen = read_until(ours, line)
        rows.tell("on a terminal a line says that two are open, and no hits", seen.endswith(line), seen)
        answered = all(ask(streams[0], *asked) for asked in ((put(f"/cas/{DIGITS}", NINE), DONE), (get(f"/cas/{DIGITS}"), found(NINE))))
        line = b"\r2 open, 1 hits\x1b[K"
        seen = read_until(ours, line)
        rows.tell("then that there was a hit, within a second or two, and nothing else", answered and seen == line, seen)
        streams[1].close()
        seen = read_until(ours, b"done\r\n")
        rows.tell("the line of the log stands in its place", seen.startswith(b"\r\x1b[K") and seen.count(b"\x1b[K") == 1, seen)
        line = b"\r1 open, 1 hits\x1b[K"
        seen = read_until(ours, line)
        rows.tell("and then it says that one is open", seen == line, seen)
        streams[0].close()
        seen = read_until(ours, b"done\r\n")
        rows.tell("which is taken away at the end", seen.startswith(b"\r\x1b[K") and it.wait() == 0, seen)
    os.close(theirs)
    os.close(ours)
    ours, theirs = os.pipe()
    with many(program, connections=1, errors=theirs) as it, connect(it.port) as stream:
        answered = ask(stream, get(f"/cas/{FEED}"), ABSENT)
        seen = read_until(ours, b"open", 1.5)
        rows.tell("without a terminal no line comes", answered and seen == b"", seen)
    os.close(theirs)
    os.close(ours)


def try_counts(rows, program):
    words = ["serve", "--listen", "127.0.0.1:0", "--connections", "0", *LIMITS, "--at-once"]
    for count in ("0", "1025", "2000", "x", "-1", ""):
        told = harness.run(program, *words, count)
        rows.tell(f"--at-once {count!r} is refused with status 2", (told.returncode, told.stdout) == (2, b"") and is_error(told.stderr), told)
    for count in ("1", "2", "1024"):
        told = harness.run(program, *words, count)
        rows.tell(f"--at-once {count}: no connection is served, and status 0", told.returncode == 0 and told.stderr == b"", told)


def try_many(rows, program):
    for part in (try_mixed, try_neighbours, try_places, try_silence, try_waiting, try_stopped, try_line, try_counts):
        part(rows, program)


def try_no_end(rows, program):
    """Without `--connections` a server goes on until it is ended: 256 connections at a time, or as many as are said."""
    for name, more in (("by default", ()), ("one after another", ("--at-once", "1")), ("with --at-once", ("--at-once", "2"))):
        with Server(program, more=more) as it:
            served = 0
            for _ in range(5):
                with connect(it.port) as stream:
                    served += ask(stream, get(f"/cas/{NO_BYTES}"), found(b""))
            rows.tell(f"without --connections 5 are served, {name}", served == 5, served)
            rows.tell("and the server goes on", it.process.poll() is None, it.process.returncode)
            it.process.terminate()
            rows.tell("until it is ended", it.process.wait(within(20)) == -signal.SIGTERM, it.process.returncode)


def try_units(rows, program):
    """A limit of 1K takes blobs of 1,024 bytes together, and no larger one."""
    blob = bytes(1024)
    with Server(program, 1, limit="1K", result_limit="1K") as it, connect(it.port) as stream:
        right = ask(stream, put(f"/cas/{Digest.of(blob).hash}", blob), DONE)
        larger = ask(stream, put(f"/cas/{Digest.of(blob + b'x').hash}", blob + b"x"), FULL)
        rows.tell("a limit of 1K is one of 1,024 bytes", right and larger, (right, larger))


def try_usual(rows, program):
    """Where nothing is said of it, 256 connections are held at a time, and one where the server ends after so many."""
    request, answer = get(f"/cas/{NO_BYTES}"), found(b"")
    with Server(program) as it:
        streams = [connect(it.port) for _ in range(257)]
        answered = sum(ask(stream, request, answer) for stream in streams[:256])
        rows.tell("by default 256 connections are answered side by side", answered == 256, answered)
        streams[256].sendall(request)
        waits = not select.select([streams[256]], [], [], 0.5)[0]
        streams[0].close()
        rows.tell("and one more once another has ended", waits and read_until(streams[256].fileno(), answer) == answer)
        for stream in streams[1:]:
            stream.close()
    with Server(program, 2) as it, connect(it.port) as first, connect(it.port) as second:
        right = ask(first, request, answer)
        second.sendall(request)
        waits = not select.select([second], [], [], 0.5)[0]
        first.close()
        rows.tell("with --connections one after another", right and waits and read_until(second.fileno(), answer) == answer)


def try_address(rows, program):
    """An address in use is refused. One whose server was ended, with a client there, is free at once, and nothing is held."""
    with Server(program) as it, connect(it.port) as client:
        answered = ask(client, put(f"/cas/{DIGITS}", NINE), DONE)
        told = harness.run(program, "serve", "--listen", it.address, *LIMITS)
        right = (told.returncode, told.stdout) == (3, b"") and is_error(told.stderr) and it.address.encode() in told.stderr
        rows.tell("an address in use: status 3, and it is named", answered and right, told)
        it.process.terminate()
        rows.tell("SIGTERM ends a server with a client", it.process.wait(within(20)) == -signal.SIGTERM, it.process.returncode)
        with Server(program, address=it.address) as again, connect(again.port) as client:
            right = again.address == it.address and ask(client, get(f"/cas/{DIGITS}"), ABSENT)
            rows.tell("another one has its address at once, and nothing that it held", right)


def try_few_files(rows, program):
    """A server that may open 20 files: the connections beyond wait until others end, and it goes on."""
    few = ["bash", "-c", 'ulimit -n 20; exec "$0" "$@"', program]
    with Server(few, more=("--at-once", "1024")) as it:
        request, answer = get(f"/cas/{NO_BYTES}"), found(b"")
        streams = [connect(it.port) for _ in range(40)]
        answered = 0
        for stream in streams:
            answered += ask(stream, request, answer)
            stream.close()
        rows.tell("of 40 connections to a server of 20 files each is answered in its turn", answered == 40, answered)
        rows.tell("and the server goes on", it.process.poll() is None, it.process.returncode)


def numbers_logged(log):
    """The numbers of the connections of which a log tells, in the order in which they ended."""
    return [int(it) for it in re.findall(r"(?m) (\d+) 127\.0\.0\.1:\d+: \d+ requests, ", log)]


def try_room_for_one(rows, program):
    """A server that may open one file more can accept a connection, but not serve it: each that was let go is one of those that
    it serves, and stands in the log."""
    with tempfile.TemporaryFile("w+") as errors:
        with server(program, 3, errors=errors) as it:
            files = max(map(int, os.listdir(f"/proc/{it.process.pid}/fd"))) + 2
            resource.prlimit(it.process.pid, resource.RLIMIT_NOFILE, (files, files))
            answered = 0
            for _ in range(3):
                with connect(it.port) as stream:
                    answered += ask(stream, get(f"/cas/{NO_BYTES}"), found(b""))
            status = it.wait()
        errors.seek(0)
        logged = errors.read()
    rows.tell("connections that are let go as they are accepted count", (answered, status) == (0, 0), (answered, status))
    rows.tell("and the log tells of each", numbers_logged(logged) == [0, 1, 2], logged)


def try_all(rows, program):
    try_streams(rows, program)
    try_heads(rows, program)
    try_many(rows, program)
    try_no_end(rows, program)
    try_usual(rows, program)
    try_units(rows, program)
    try_address(rows, program)
    try_few_files(rows, program)
    try_room_for_one(rows, program)


if __name__ == "__main__":
    try_rows(__doc__, try_all)
