"""The cache as docs/FORMATS.md has it, in lists: what each request is answered, and what is held then. And requests at random of a
few blobs and results, each with the model's answer to it."""

import functools
import hashlib
import random

from shared.messages import Digest, File, result_message, tree_message

LIMIT = 1 << 20
RESULT_LIMIT = 4000


@functools.lru_cache(maxsize=8192)
def hash_of(blob):
    return hashlib.sha256(blob).digest()


@functools.lru_cache(maxsize=8192)
def file_of(blob):
    return File(Digest.of(blob), is_executable=False)


def files_of(named):
    return {name: file_of(blob) for name, blob in named}


class Result:
    """The bytes of a result, and what it refers to: blobs of files, and Trees with the blobs of their files."""

    def __init__(self, files, trees):
        self.body = result_message({**files_of(files), **{path: files_of(below) for path, below in trees}})
        self.files = [blob for _, blob in files]
        self.trees = [(tree_message(files_of(below)), [blob for _, blob in below]) for _, below in trees]

    def size(self):
        """How many bytes it refers to."""
        blobs = set(self.files).union(*([tree, *files] for tree, files in self.trees))
        return sum(map(len, blobs))


class Model:
    """The cache: blobs and results by hash, the most recently used first."""

    def __init__(self, limit=LIMIT, result_limit=RESULT_LIMIT):
        self.limit = limit
        self.result_limit = result_limit
        self.blobs = []
        self.results = []

    def copy(self):
        new = Model(self.limit, self.result_limit)
        new.blobs, new.results = list(self.blobs), list(self.results)
        return new

    def state(self):
        """What tells it from another one."""
        return tuple(hash for hash, _ in self.blobs), tuple((key, result.body, on) for key, result, on in self.results)

    def held(self, blob):
        return not blob or any(it == blob for _, it in self.blobs)

    def complete(self, result):
        return all(map(self.held, result.files)) and all(
            self.held(tree) and all(map(self.held, files)) for tree, files in result.trees
        )

    def references(self, result):
        """The hashes of what a result refers to, in order; of a Tree's files only where the Tree is held."""
        out = [hash_of(blob) for blob in result.files]
        for tree, files in result.trees:
            out.append(hash_of(tree))
            if self.held(tree):
                out += [hash_of(blob) for blob in files]
        return out

    def enter(self, new, others, cost, pinned, limit):
        """The new entry first, and the last unpinned others evicted as far as need be. None: no room."""
        kept = [new] + others
        over = sum(map(cost, kept)) - limit
        for entry in reversed(others):
            if over <= 0:
                break
            if not pinned(entry):
                kept.remove(entry)
                over -= cost(entry)
        return kept if over <= 0 else None

    def front(self, hash):
        self.blobs.sort(key=lambda it: it[0] != hash)

    def get_blob(self, hash):
        if hash == hash_of(b""):
            return 200, b""
        for found, blob in self.blobs:
            if found == hash:
                self.front(hash)
                return 200, blob
        return 404, b""

    def put_blob(self, hash, blob):
        if hash_of(blob) != hash:
            return 400, b""
        if not blob:
            return 200, b""
        if any(it[0] == hash for it in self.blobs):
            self.front(hash)
            return 200, b""
        pins = {it for _, result, on in self.results if on for it in self.references(result)}
        kept = self.enter((hash, blob), self.blobs, lambda it: len(it[1]), lambda it: it[0] in pins, self.limit)
        if kept is None:
            return 507, b""
        self.blobs = kept
        return 200, b""

    def get_result(self, key):
        for at, (found, result, on) in enumerate(self.results):
            if found == key and self.complete(result):
                self.results.insert(0, self.results.pop(at))
                for hash in self.references(result):
                    self.front(hash)
                return 200, result.body
        return 404, b""

    def put_result(self, key, result):
        before = next((it for it in self.results if it[0] == key), None)
        if before and before[2] and before[1].body != result.body:
            return 409, b""
        others = [it for it in self.results if it[0] != key]
        new = (key, result, bool(before and before[2]))
        kept = self.enter(new, others, lambda it: len(it[1].body) + 64, lambda it: it[2], self.result_limit)
        if kept is None:
            return 507, b""
        self.results = kept
        return 200, b""

    def pin(self, key, on):
        for at, (found, result, pinned) in enumerate(self.results):
            if found == key and (pinned if not on else self.complete(result)):
                self.results[at] = (found, result, on)
                return 200, b""
        return 404, b""


# Requests: each a kind, a method, a path, a body, and the model's answer to it, as a function of the model.


def ask_blob(hash):
    return "GET cas", "GET", f"/cas/{hash.hex()}", b"", lambda model: model.get_blob(hash)


def give_blob(hash, blob):
    return "PUT cas", "PUT", f"/cas/{hash.hex()}", blob, lambda model: model.put_blob(hash, blob)


def ask_result(key):
    return "GET ac", "GET", f"/ac/{key.hex()}", b"", lambda model: model.get_result(key)


def give_result(key, result):
    return "PUT ac", "PUT", f"/ac/{key.hex()}", result.body, lambda model: model.put_result(key, result)


def ask_pin(key, on):
    area = "pin" if on else "unpin"
    return f"PUT {area}", "PUT", f"/{area}/{key.hex()}", b"", lambda model: model.pin(key, on)


class Unlike(Exception):
    """An answer that isn't the model's."""


class Requests:
    """Requests at random of a few blobs and results."""

    def __init__(self, seed):
        self.random = random.Random(seed)
        self.blobs = [self.random.randbytes(self.size()) for _ in range(300)]
        self.keys = [hash_of(bytes([it])) for it in range(40)]
        names = ["a", "b", "c"]
        self.made = []
        for _ in range(60):
            files = [(name, self.random.choice(self.blobs)) for name in names[: self.random.randrange(4)]]
            trees = [
                ("d" + name, [(it, self.random.choice(self.blobs)) for it in names[: self.random.randrange(4)]])
                for name in names[: self.random.randrange(3)]
            ]
            self.made.append(Result(files, trees))
        self.trees = [tree for result in self.made for tree, _ in result.trees]

    def size(self):
        return self.random.choice([0, 1, 100, 1000, 10000, 30000, 100000]) + self.random.randrange(50)

    def blob(self):
        few = self.random.random() < 0.5
        return self.random.choice(self.blobs if few else self.blobs[:60] + self.trees + [b""])

    def next(self, pins):
        """A request at random, of one that pins or unpins only where so wished: its kind, method, path and body, and the
        model's answer to it, as a function of the model."""
        key, blob = self.random.choice(self.keys), self.blob()
        kind = self.random.choices(
            ["GET cas", "PUT cas", "PUT wrong", "GET ac", "PUT ac", "PUT bad", "PUT pin", "PUT unpin"],
            [30, 30, 2, 20, 10, 1, 8 * pins, 3 * pins],
        )[0]
        if kind == "GET cas":
            return ask_blob(hash_of(blob))
        if kind == "PUT cas":
            return give_blob(hash_of(blob), blob)
        if kind == "PUT wrong":
            return kind, "PUT", f"/cas/{key.hex()}", blob, lambda model: model.put_blob(key, blob)
        if kind == "GET ac":
            return ask_result(key)
        if kind == "PUT ac":
            return give_result(key, self.random.choice(self.made))
        if kind == "PUT bad":
            return kind, "PUT", f"/ac/{key.hex()}", b"\xff", lambda _model: (400, b"")
        return ask_pin(key, kind == "PUT pin")
