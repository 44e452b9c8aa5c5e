#!/usr/bin/env python3
"""Asks a server of `buildcache serve` at random, and compares each answer with a model: soak.py PROGRAM [SECONDS [SEED]]

For SECONDS (60) it sends GET and PUT of blobs and results, pin and unpin, to a server whose limits are small, so that
entries are evicted all the time. The model is the cache as docs/FORMATS.md has it, in lists: each answer has to be
the model's, bytes and all. Connections are closed and opened at random, in the middle of a body too, which changes
nothing. After every 10,000 requests results are pinned until blobs and results are refused for want of room (507);
it goes on so for 2,000 requests, and then all are unpinned.

Then it does the same with 50 connections at `serve --at-once 64`: up to five of them at a time send one to three requests
each, in pieces that arrive interleaved. Their answers have to be those of the model for some order of the requests that keeps
the order within each connection.

Then a cache of 1,024 blobs is filled to its limit, a tenth of it pinned, and as many blobs are put three times over;
every blob that was ever put is asked for. The rest is pinned, until nothing more is taken. Then come clients that
misbehave: one that is silent, sends a byte a second, never reads or resets in a body; 10,000 connections one
after another, and the server killed in the middle of a PUT and started again; and at `serve --at-once` 1,000 that say
nothing, and 100 that ask for much and take nothing, or stop in a body or a head. It prints what was asked, the answers by
status, and the server's memory at the start and at the end; it ends with status 1 at the first answer that isn't the
model's. Nothing outside this machine is asked.
"""

import collections
import random
import sys
import time

from cache_model import (
    LIMIT, RESULT_LIMIT, Model, Requests, Result, Unlike, ask_blob, ask_pin, ask_result, give_blob, give_result, hash_of,
)
from shared import harness
from shared.command_line import numbers_of, program_at, words_of
from shared.rows import Rows
from soak_clients import Client, crowd, misbehave, request_text, server_of

# The cache that is filled: blobs of one size, and results that refer to eight of them each.
BLOB = 16384
BLOBS = 1024
GROUP = 8

# How many connections are open at once, of how many that may be.
AT_ONCE = 50
PLACES = 64


class Checked:
    """A server beside its model: each answer has to be the model's."""

    def __init__(self, program, limit, result_limit):
        self.server = server_of(program, 60, limit, result_limit, ("--at-once", "1"))
        self.client = Client(self.server.port)
        self.model = Model(limit, result_limit)
        self.seen = collections.Counter()

    def check(self, kind, method, path, body, answer):
        want = answer(self.model)
        got = self.client.ask(method, path, body)
        self.seen[f"{kind} {got[0]}"] += 1
        if got != want:
            raise Unlike(f"{method} {path}: {got[0]} {got[1][:40]!r}, not {want[0]} {want[1][:40]!r}")
        return got[0]

    def get_blob(self, hash):
        return self.check(*ask_blob(hash))

    def put_blob(self, blob):
        return self.check(*give_blob(hash_of(blob), blob))

    def get_result(self, key):
        return self.check(*ask_result(key))

    def put_result(self, key, result):
        return self.check(*give_result(key, result))

    def pin(self, key, on):
        return self.check(*ask_pin(key, on))

    def put_whole(self, key, result):
        """What a result refers to, the result, and its pin."""
        for blob in result.files + [tree for tree, _ in result.trees] + [it for _, files in result.trees for it in files]:
            self.put_blob(blob)
        self.put_result(key, result)
        self.pin(key, True)

    def tell(self):
        for kind in sorted(self.seen):
            print(f"  {kind}: {self.seen[kind]}")


def broken_off(blob):
    """A PUT whose body lacks a byte."""
    return harness.put(harness.path_of(blob), blob + b"x")[:-1]


class Soak(Checked):
    def __init__(self, program, seed):
        super().__init__(program, LIMIT, RESULT_LIMIT)
        self.requests = Requests(seed)
        self.random, self.keys, self.made = self.requests.random, self.requests.keys, self.requests.made
        self.filled = 0

    def turn(self, pins):
        """One request at random, or one that is broken off."""
        if self.random.random() < 0.01:
            self.break_off(self.requests.blob())
        else:
            self.check(*self.requests.next(pins))
        if self.random.random() < 0.01:
            self.client.close()

    def break_off(self, blob):
        self.client.connect().sendall(broken_off(blob))
        self.client.close(reset=self.random.random() < 0.5)
        self.seen["broken off"] += 1

    def fill(self):
        """Results are pinned, the largest first, until a blob and a result were refused for want of room; whether so."""
        before = self.seen["PUT cas 507"], self.seen["PUT ac 507"]
        self.random.shuffle(self.keys)
        for key, result in zip(self.keys, sorted(self.made, key=Result.size, reverse=True)):
            if self.seen["PUT cas 507"] == before[0]:
                self.put_whole(key, result)
        for _ in range(400):
            if self.seen["PUT ac 507"] == before[1]:
                self.put_whole(self.random.choice(self.keys), self.random.choice(self.made))
        return self.seen["PUT cas 507"] > before[0] and self.seen["PUT ac 507"] > before[1]

    def run(self, seconds):
        first = None
        end = time.monotonic() + seconds
        asked = 0
        while time.monotonic() < end:
            asked += 1
            self.turn(1)
            if asked == 5000:
                first = self.server.memory()
            if asked % 10000 == 0:
                self.filled += self.fill()
                for _ in range(2000):
                    self.turn(0)
                for key in self.keys:
                    self.pin(key, False)
        asked = sum(self.seen.values()) - self.seen["broken off"]
        print(f"{asked} requests in {seconds} s, each answered as the model answers; the pinned filled both limits {self.filled} times")
        self.tell()
        print(f"memory of the server after 5,000 requests: {first} kB, at the end: {self.server.memory()} kB")


class Many:
    """A server of many connections at once, beside the models that agree with all that it has answered."""

    def __init__(self, program, seed):
        self.server = server_of(program, 60, more=("--at-once", str(PLACES)))
        self.clients = [Client(self.server.port) for _ in range(AT_ONCE)]
        self.requests = Requests(seed)
        self.random = self.requests.random
        self.models = [Model()]
        self.asked = self.mixed = 0

    def after(self, queues):
        """The models after the requests of the queues, each with its answer, in any order that keeps that of each queue."""
        found, left = {}, [(model, queues) for model in self.models]
        while left:
            model, queues = left.pop()
            if not any(queues):
                found[model.state()] = model
            for at, queue in enumerate(queues):
                if queue:
                    new = model.copy()
                    (*_, answer), got = queue[0]
                    if answer(new) == got:
                        left.append((new, [*queues[:at], queue[1:], *queues[at + 1 :]]))
        return list(found.values())

    def send(self, texts):
        """Each client's text, in pieces that come mixed."""
        left = [(client, text) for client, text in texts if text]
        while left:
            client, text = left.pop(self.random.randrange(len(left)))
            most = self.random.choice([1, 20, 1000, 65536, len(text)])
            client.connect().sendall(text[:most] if len(left) or most > 1000 else text)
            if len(text) > most and (left or most > 1000):
                left.append((client, text[most:]))

    def turn(self, count, most):
        """So many clients ask for up to so many things each, and get their answers."""
        asked = [[self.requests.next(1) for _ in range(self.random.randint(1, most))] for _ in range(count)]
        clients = self.random.sample(self.clients, count)
        self.send([(it, b"".join(request_text(*one[1:4]) for one in queue)) for it, queue in zip(clients, asked)])
        told = [[(one, client.answer()) for one in queue] for client, queue in zip(clients, asked)]
        self.models = self.after(told)
        self.asked += sum(map(len, told))
        self.mixed += count > 1
        if not self.models:
            shown = [[(one[1], one[2], got[0]) for one, got in queue] for queue in told]
            raise Unlike(f"no order of these requests has these answers: {shown}")
        return [one for queue in asked for one in queue]

    def settle(self, asked):
        """What was asked for is looked up once more, by one client after another: this tells most models apart."""
        for _, _, path, _, _ in asked:
            area, _, hash = path[1:].partition("/")
            one = (ask_blob if area == "cas" else ask_result)(bytes.fromhex(hash))
            self.models = self.after([[(one, self.random.choice(self.clients).ask(*one[1:4]))]])
            self.asked += 1
            if not self.models:
                raise Unlike(f"{one[1]} {one[2]} isn't answered as after any order of what was asked before")

    def misbehave(self):
        """A client goes away, at once or in the middle of a body, and another one comes in its place."""
        client = self.random.choice(self.clients)
        if self.random.random() < 0.5:
            blob = self.requests.blob()
            client.connect().sendall(broken_off(blob))
        client.close(reset=self.random.random() < 0.5)

    def run(self, seconds):
        for client in self.clients:
            client.connect()
        end = time.monotonic() + seconds
        while time.monotonic() < end:
            count = self.random.randint(2, 5) if len(self.models) < 50 else 1
            self.settle(self.turn(count, 3 if count < 4 else 1))
            if self.random.random() < 0.1:
                self.misbehave()
        print(f"{self.asked} requests over {AT_ONCE} connections in {seconds} s, {self.mixed} times of several at once,"
              " each time answered as the model answers in some order")
        print(f"memory of the server {self.server.memory()} kB")


class Full(Checked):
    """A cache that is filled to its limit, with a tenth of it pinned."""

    def __init__(self, program, seed):
        super().__init__(program, BLOB * BLOBS, 1 << 20)
        self.random = random.Random(seed)
        self.put = []

    def more(self, count):
        """So many new blobs are put, and how many were taken."""
        new = [self.random.randbytes(BLOB) for _ in range(count)]
        self.put += new
        return sum(self.put_blob(it) == 200 for it in new)

    def pin_group(self, blobs):
        names = [chr(97 + it) for it in range(GROUP)]
        result = Result(list(zip(names, blobs)), [])
        key = hash_of(result.body)
        self.put_result(key, result)
        return key, self.pin(key, True)

    def run(self, rows):
        began = time.monotonic()
        self.more(BLOBS)
        pinned = self.put[: BLOBS // 10 // GROUP * GROUP]
        keys = [self.pin_group(pinned[at : at + GROUP])[0] for at in range(0, len(pinned), GROUP)]
        taken = self.more(3 * BLOBS)
        held = sum(self.get_blob(hash_of(it)) == 200 for it in self.put)
        whole = all(self.get_blob(hash_of(it)) == 200 for it in pinned) and all(self.get_result(it) == 200 for it in keys)
        print(f"{len(pinned)} of {BLOBS} blobs pinned: {taken} of {3 * BLOBS} more are taken, {held} of {len(self.put)} are held,"
              f" {'all' if whole else 'NOT all'} that are pinned")
        kept = set(pinned)
        others = [blob for _, blob in self.model.blobs if blob not in kept]
        keys += [self.pin_group(others[at : at + GROUP])[0] for at in range(0, len(others), GROUP)]
        refused = 100 - self.more(100)
        self.pin(keys[0], False)
        print(f"all {BLOBS} blobs pinned: {refused} of 100 more are refused; with {GROUP} unpinned again {self.more(GROUP)} of {GROUP} are taken")
        self.tell()
        print(f"in {time.monotonic() - began:.1f} s; memory of the server {self.server.memory()} kB")
        rows.tell("a cache that is full keeps what is pinned, and takes what there is room for", whole and refused == 100)


def soak(program, rows, seconds, seed=1):
    """Requests at random for so many seconds, each beside the model: over one connection, and over many at once."""
    for kind, how in ((Soak, "over one connection"), (Many, f"over {AT_ONCE} connections at once")):
        name = f"{seconds} seconds of requests at random {how} are answered as the model answers"
        asked = kind(program, seed)
        try:
            asked.run(seconds)
            rows.tell(name, True)
        except (Unlike, OSError) as fault:
            rows.tell(name, False, fault)
        finally:
            asked.server.end()


def main():
    program, *numbers = words_of(__doc__, 1, 3)
    program = program_at(program)
    seconds, seed = [*numbers_of(numbers), *(60, 1)[len(numbers):]]
    rows = Rows()
    soak(program, rows, seconds, seed)
    full = Full(program, seed)
    try:
        full.run(rows)
    finally:
        full.server.end()
    misbehave(program, rows)
    crowd(program, rows)
    sys.exit(rows.end())


if __name__ == "__main__":
    main()
