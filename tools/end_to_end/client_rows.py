#!/usr/bin/env python3
"""Tries the program as a client, over sockets: client_rows.py PROGRAM

`put`, `get` and `verify --server` over the program's own server, by its address and its name, below a prefix, and over nginx
(where it is installed) with WebDAV as a store that checks nothing; folders that are put and got again, and what can't be put;
digests of random trees and of large files, without a server;
outputs that can't be written; servers that refuse, cut, fall silent, answer nonsense or lie; and the program's own server
behind one that cuts each reply in turn, or changes a byte of it. It prints a line for each row, and ends with status 1 where
one failed. Nothing outside this machine is asked.
"""

import os
import random
import shutil
import subprocess
import tempfile

from server_streams import DIGITS, FEED, NINE, NO_BYTES, directory
from shared import harness, stores
from shared.builds import SHELL, Builds
from shared.crates import TOP
from shared.harness import Between, Faulty, Nginx, Server, is_error, standing_at
from shared.messages import Digest, File, Link, directory_message
from shared.rows import try_rows

SOURCES = Digest.of(directory("a")).text()
CLAIM = Digest.of(directory("b")).text()
# Names that are odd, and one that is as long as a name may be.
ODD_NAMES = ("a", "B", " ", "é", "a.b", "-", "\n", "~", "n" * 255)


def commands(folder, address, more=()):
    """The client's commands in their order, each with what it prints and its status."""
    server = ["--server", address, *more]
    verify = ["verify", *server, "--sources", SOURCES, "--plan", f"{folder}/plan", "--record", f"{folder}/record"]
    return [
        (["put", *server, f"{folder}/tree/a"], f"{DIGITS}/9\n".encode(), 0),
        (["put", *server, f"{folder}/tree"], f"{SOURCES}\n".encode(), 0),
        ([*verify, "--claim", CLAIM], f"yes {CLAIM} steps 0\n".encode(), 0),
        (["get", *server, f"{DIGITS}/9"], NINE, 0),
        (["get", *server, f"{FEED}/1"], b"", 1),
        (["get", *server, f"{NO_BYTES}/0"], b"", 0),
    ]


def try_commands(rows, program, folder, address, name, more=()):
    for words, output, status in commands(folder, address, more):
        told = harness.run(program, *words)
        note = f"note: {address} has no blob {words[-1]}\n".encode() if status == 1 else b""
        right = (told.stdout, told.returncode, told.stderr) == (output, status, note)
        rows.tell(f"{words[0]} over {name}: status {status}", right, told)


def try_clients(rows, program, folder):
    with Server(program, 6, 1000, 1000) as it:
        try_commands(rows, program, folder, it.address, "serve")
        status = it.wait()
    rows.tell("after its six connections serve ends with status 0", status == 0, status)
    if not shutil.which("nginx"):
        print("       nginx isn't installed: nothing is tried over it")
        return
    with Nginx() as it:
        try_commands(rows, program, folder, it.address, "nginx")
    try_shards(rows, program, folder)


def try_shards(rows, program, folder):
    """deploy/nginx-shards.conf before two servers that have a prefix: each blob is with the one that its hash says, and a result
    with nginx."""
    prefix = "/team"
    more = ("--at-once", "8", "--prefix", prefix)
    with Server(program, more=more) as low, Server(program, more=more) as high, Nginx(text=shards_text(low, high)) as it:
        try_commands(rows, program, folder, it.address, "two shards", ("--prefix", prefix))
        front, *halves = (stores.ServerStore(each.address, prefix) for each in (it, low, high))
        front.put("ac", DIGITS, b"result")
        found = [store.get("ac", DIGITS) for store in (front, *halves)]
        rows.tell("two shards: a result is with nginx alone", found == [b"result", None, None], found)
        for blob in (b"a", b"b", b"c", b"i"):
            name = Digest.of(blob).hash
            front.put("cas", name, blob)
            found = [store.get("cas", name) for store in (front, *halves)]
            held = [blob, blob, None] if name[0] < "8" else [blob, None, blob]
            rows.tell(f"two shards: {name[:8]} is with the one that its hash says", found == held, found)


def shards_text(low, high):
    """The configuration before these two servers, for a folder of nginx's own."""
    with open(f"{TOP}/deploy/nginx-shards.conf", encoding="utf-8") as file:
        text = file.read()
    places = {"/var/lib/buildcache": "{folder}/store", "127.0.0.1:8080": low.address, "127.0.0.1:8090": high.address,
              "127.0.0.1:8081": "127.0.0.1:{port}"}
    for old, new in places.items():
        if old not in text:
            raise RuntimeError(f"nginx-shards.conf has no {old}")
        text = text.replace(old, new)
    return "daemon off;\npid {folder}/pid;\n" + text


FAULTS = {
    "a reply that is cut": (b"HTTP/1.1 200 OK\r\nContent-Length: 9\r\n\r\n1234", "close"),
    "no reply": (b"", "close"),
    "a reset": (b"HTTP/1.1 200 OK\r\n", "reset"),
    "silence": (b"HTTP/1.1 200 OK\r\nContent-Length: 9\r\n\r\n1234", "silent"),
    "a reply without a length": (b"HTTP/1.1 200 OK\r\n\r\n123456789", "close"),
    "another protocol": (b"SSH-2.0-OpenSSH\r\n\r\n", "close"),
    "status 500": (b"HTTP/1.1 500 Internal Server Error\r\nContent-Length: 0\r\n\r\n", "close"),
    "other bytes": (b"HTTP/1.1 200 OK\r\nContent-Length: 9\r\n\r\n987654321", "close"),
}


def try_faults(rows, program):
    def ask(address):
        return harness.run(program, "get", "--server", address, "--timeout", "1", f"{DIGITS}/9")

    def is_fault(told, address):
        return (told.stdout, told.returncode) == (b"", 3) and is_error(told.stderr) and address.encode() in told.stderr

    for name, (answer, ending) in FAULTS.items():
        with Faulty(answer, ending) as it:
            told = ask(it.address)
        rows.tell(f"{name}: status 3, and one line that names the server", is_fault(told, it.address), told)
    told = ask("127.0.0.1:1")
    rows.tell("nobody listens: status 3, and one line that names the server", is_fault(told, "127.0.0.1:1"), told)


# Replies to a PUT, and to a GET of the nine digits, with the status that the command has.
TO_PUT = [
    ("200 OK", b"Content-Length: 0", b"", 0),
    ("200 OK", b"Content-Length: 4", b"text", 0),
    ("201 Created", b"Content-Length: 0", b"", 0),
    ("202 Accepted", b"Content-Length: 0", b"", 0),
    ("204 No Content", b"X: y", b"", 0),
    ("204 No Content", b"Content-Length: 0", b"", 0),
    ("204 No Content", b"Content-Length: 4", b"text", 3),
    ("302 Found", b"Content-Length: 0", b"", 3),
    ("404 Not Found", b"Content-Length: 0", b"", 3),
]
TO_GET = [
    ("200 OK", b"Content-Length: 9\r\nConnection: close", NINE, 0),
    ("200 Fine", b"content-length:   9  ", NINE, 0),
    ("200 OK", b"Content-Length: 9\r\nContent-Length: 9", NINE, 3),
    ("200 OK", b"Content-Length: +9", NINE, 3),
    ("200 OK", b"Content-Length: 16777217", NINE, 3),
    ("200 OK", b"Transfer-Encoding: chunked", b"9\r\n123456789\r\n0\r\n\r\n", 3),
    ("200 OK", b"Content-Length: 9\r\nTransfer-Encoding: identity", NINE, 3),
    ("201 Created", b"Content-Length: 9", NINE, 3),
    ("204 No Content", b"X: y", b"", 3),
    ("404 Not Found", b"Content-Length: 4", b"none", 1),
    ("404 Not Found", b"X: y", b"", 3),
    ("100 Continue", b"X: y", b"HTTP/1.1 200 OK\r\nContent-Length: 9\r\n\r\n123456789", 3),
]


def try_requests(rows, program, folder):
    """What a client sends, to the byte, and which replies it takes for an answer."""
    path, nine = f"/p/cas/{DIGITS}", f"{DIGITS}/9"
    for command, replies in (("put", TO_PUT), ("get", TO_GET)):
        for status_line, fields, body, status in replies:
            with Faulty(f"HTTP/1.1 {status_line}\r\n".encode() + fields + b"\r\n\r\n" + body) as it:
                host = it.address.replace("127.0.0.1", "localhost")
                told = harness.run(program, command, "--server", host, "--prefix", "/p", f"{folder}/tree/a" if command == "put" else nine)
            length = "" if command == "get" else "Content-Length: 9\r\n"
            asked = (f"{command.upper()} {path} HTTP/1.1\r\nHost: {host}\r\n{length}\r\n".encode(), b"" if command == "get" else NINE)
            out = {0: f"{nine}\n".encode() if command == "put" else NINE}.get(status, b"")
            right = (told.returncode, told.stdout, it.asked) == (status, out, asked) and harness.is_told(told.stderr, status)
            name = f"{command}: a reply {status_line}, {fields.decode()}, {len(body)} bytes: status {status}".replace("\r\n", ", ")
            rows.tell(name, right, (told, it.asked))


def try_replies(rows, program, folder):
    """Each reply to each command is cut in turn, and each byte of a blob changed."""
    with Server(program) as beyond:
        for words, output, status in commands(folder, beyond.address):
            told = harness.run(program, *words)
            assert (told.stdout, told.returncode) == (output, status), told
            for number, path in enumerate(replies_to(program, words, beyond)):
                try_cut(rows, program, words, beyond, number)
                if path.startswith("GET /cas/"):
                    try_lie(rows, program, words, beyond, number, path)


def replies_to(program, words, beyond):
    """The requests that a command makes, as METHOD PATH."""
    asked = []

    def note(_number, method, path, head, body):
        asked.append(f"{method} {path}")
        return head + body

    with Between(beyond, note) as it:
        harness.run(program, *at(words, it.address))
    return asked


def at(words, address):
    return [address if before == "--server" else word for before, word in zip(["", *words], words)]


def try_cut(rows, program, words, beyond, number):
    with Between(beyond, lambda it, _method, _path, head, body: (head + body)[: -1 if it == number else None]) as it:
        told = harness.run(program, *at(words, it.address))
    right = (told.stdout, told.returncode) == (b"", 3) and is_error(told.stderr) and it.address.encode() in told.stderr
    rows.tell(f"{words[0]}: reply {number + 1} cut by a byte: status 3, and one line that names the server", right, told)


def try_lie(rows, program, words, beyond, number, path):
    """A byte of a blob changed: `get` tells the fault, and `verify` says no with the blob's digest."""
    sizes = []

    def lie(it, _method, _path, head, body):
        if it != number or not body:
            return head + body
        sizes.append(len(body))
        return head + body[:-1] + bytes([body[-1] ^ 1])

    with Between(beyond, lie) as it:
        told = harness.run(program, *at(words, it.address))
    if not sizes:
        return
    blob = f"{path.rpartition('/')[2]}/{sizes[0]}".encode()
    if words[0] == "verify":
        right = told.stdout.startswith(b"no ") and told.stdout.endswith(b" cause blob-wrong " + blob + b"\n") and told.returncode == 1
    else:
        right = (told.stdout, told.returncode) == (b"", 3) and is_error(told.stderr)
    rows.tell(f"{words[0]}: a byte of reply {number + 1} changed: {'no, and the blob is named' if words[0] == 'verify' else 'status 3'}",
              right, told)


def get_into(builds, digest, folder):
    return builds.run("get", "--server", builds.address, "--into", folder, digest)


def expect_got(builds, name, done, out, status):
    right = done.stdout == out.encode() and done.returncode == status
    builds.rows.tell(name, right and (harness.is_error(done.stderr) if status > 1 else done.stderr == b""), done)


def expect_tree(builds, name, digest, folder, tree):
    expect_got(builds, name, get_into(builds, digest, folder), "", 0)
    builds.rows.tell(f"{name}: it is the tree", standing_at(folder) == tree, standing_at(folder))


def try_trees(builds):
    """`get --into`: the tree of a digest in a folder, as the tree has it; and no folder that has something is written into."""
    script = "mkdir -p out/d/e; printf %s 123456789 > out/d/f; : > out/g"
    done, place = builds.build(builds.plan([("mk", [*SHELL, script], ["out"], ())], ["a/b out mk out", "c out mk out/g"]))
    nine, none = File(Digest.of(NINE), False), File(Digest.of(b""), False)
    tree = {"a": {"b": {"d": {"e": {}, "f": nine}, "g": none}}, "c": none}
    root = Digest.of(directory_message(tree)).text()
    builds.expect_built("a root with folders above what a step made", done, place, root)
    empty = (b"", False)
    made = {"a": None, "a/b": None, "a/b/d": None, "a/b/d/e": None, "a/b/d/f": (NINE, False), "a/b/g": empty, "c": empty}
    expect_tree(builds, "the root of a build", root, f"{place}/tree", made)
    os.mkdir(f"{place}/empty")
    expect_tree(builds, "into a folder that is empty", root, f"{place}/empty", made)
    expect_got(builds, "into it again, as it isn't empty now", get_into(builds, root, f"{place}/empty"), "", 3)
    builds.rows.tell("and it is as it was", standing_at(f"{place}/empty") == made)
    expect_got(builds, "into a file", get_into(builds, root, f"{place}/plan"), "", 3)
    expect_got(builds, "below a folder that isn't there", get_into(builds, root, f"{place}/none/tree"), "", 3)


def try_other_trees(builds):
    """`get --into` of what no build made: a digest of no tree, links, a program, and trees that the server lacks in part."""
    place = f"{builds.work}/others"
    os.mkdir(place)
    blob = builds.put(NINE)
    unlike = get_into(builds, blob, f"{place}/file")
    expect_got(builds, "the digest of a file", unlike, "", 3)
    said = f"error: {builds.address}: get of blob {blob}: not a Directory; leave out --into to get a file's bytes\n"
    builds.rows.tell("and it is told how those bytes are got", unlike.stderr == said.encode(), unlike)
    outside = {"l": Link("../../plan"), "m": Link("/etc"), "x": File(Digest.of(NINE))}
    made = {"l": "../../plan", "m": "/etc", "x": (NINE, True)}
    expect_tree(builds, "links and a program", builds.put(directory_message(outside)), f"{place}/links", made)
    lost = Digest.of(b"lost")
    lacking = {"a": File(Digest.of(NINE)), "b": File(lost), "c": File(Digest.of(NINE))}
    lacks = get_into(builds, builds.put(directory_message(lacking)), f"{place}/lacking")
    expect_got(builds, "a file that the server lacks", lacks, f"missing {lost.text()}\n", 1)
    builds.rows.tell("and what was written before stays", standing_at(f"{place}/lacking") == {"a": (NINE, True)})
    expect_got(builds, "a tree that the server lacks", get_into(builds, f"{'0' * 64}/80", f"{place}/lacked"), f"missing {'0' * 64}/80\n", 1)
    builds.rows.tell("and no folder was made", not os.path.exists(f"{place}/lacked"))
    expect_tree(builds, "the empty tree", Digest.of(b"").text(), f"{place}/nothing", {})


def try_folders(rows, program, folder):
    """A folder of all kinds, put and got below a prefix, by the name of this machine."""
    put = f"{folder}/kinds"
    os.makedirs(f"{put}/empty/in it")
    os.makedirs(f"{put}/é %20+")
    for name, text in (("é %20+/a b", NINE), ("none", b"")):
        stores.write_file(f"{put}/{name}", text)
    for name, target in (("to", "none"), ("empty/up", "../.."), ("nowhere", "/nothing/there")):
        os.symlink(target, f"{put}/{name}")
    with Server(program, more=("--prefix", "/team/x")) as it:
        near = ["--server", f"localhost:{it.port}"]
        server = [*near, "--prefix", "/team/x"]
        first = harness.run(program, "put", *server, put)
        digest = first.stdout.decode().strip()
        told = harness.run(program, "get", *server, "--into", f"{folder}/got", digest)
        right = first.returncode == 0 and (told.returncode, told.stdout, told.stderr) == (0, b"", b"")
        rows.tell("a folder that is put and got is the same", right and standing_at(put) == standing_at(f"{folder}/got"), (first, told))
        again = [harness.run(program, "put", *server, it) for it in (f"{folder}/got", f"{put}/")]
        rows.tell("and has the same digest", all(it.stdout == first.stdout for it in again), again)
        told = harness.run(program, "get", *near, digest)
        note = f"note: {near[1]} has no blob {digest}\n".encode()
        rows.tell("which isn't there without the prefix", (told.returncode, told.stdout, told.stderr) == (1, b"", note), told)
        try_bad_folders(rows, program, folder, server)


def try_bad_folders(rows, program, folder, server):
    """What can't be put is named, and no digest is printed."""
    deep = "/".join("n" * 65)
    for name, bad, make in [
        ("a fifo", "a", os.mkfifo),
        ("a file of 16,777,217 bytes", "a", lambda path: stores.write_file(path, bytes((16 << 20) + 1))),
        ("a path of 65 names", deep, lambda path: os.makedirs(os.path.dirname(path)) or stores.write_file(path, b"")),
        ("nothing there", "a", lambda path: None),
    ]:
        with tempfile.TemporaryDirectory(dir=folder) as it:
            make(f"{it}/{bad}")
            told = harness.run(program, "put", *server, f"{it}/a" if name == "nothing there" else it)
        right = (told.returncode, told.stdout) == (3, b"") and is_error(told.stderr) and f'"{it}/{bad}"'.encode() in told.stderr
        rows.tell(f"{name} isn't put: status 3, and it is named", right, told)
    with tempfile.TemporaryDirectory(dir=folder) as it:
        os.mkdir(os.fsencode(it) + b"/\xff")
        told = harness.run(program, "put", *server, it)
    right = (told.returncode, told.stdout, told.stderr) == (3, b"", f'error: "{it}": a name in it is no UTF-8\n'.encode())
    rows.tell("a name that is no UTF-8 isn't put: status 3, and its folder and why are told", right, told)


def lay_random(chance, place, levels):
    """Writes a folder of random entries: what it has, and what it has without executable bits."""
    os.mkdir(place)
    whole, plain = {}, {}
    for name in chance.sample(ODD_NAMES, chance.randrange(len(ODD_NAMES))):
        path, kind = f"{place}/{name}", chance.randrange(4 if levels else 3)
        if kind == 0:
            os.symlink(target := chance.choice(("x", "../y", "/", "none there")), path)
            whole[name] = plain[name] = Link(target)
        elif kind < 3:
            stores.write_file(path, content := chance.randbytes(chance.choice((0, 1, 65536, 70000))))
            os.chmod(path, mode := chance.choice((0o644, 0o655, 0o744, 0o755)))
            whole[name], plain[name] = (File(Digest.of(content), it) for it in (bool(mode & 0o100), False))
        else:
            whole[name], plain[name] = lay_random(chance, path, levels - 1)
    return whole, plain


def expect_digest(rows, program, name, digest, *words):
    told = harness.run(program, "digest", *words)
    right = (told.returncode, told.stdout, told.stderr) == (0, f"{digest.text()}\n".encode(), b"")
    rows.tell(f"the digest of {name}", right, told)


def try_digests(rows, program, folder):
    """`digest`: of files and of random trees as this file makes their messages, with executable bits and without."""
    chance = random.Random(1)
    for number in range(12):
        whole, plain = lay_random(chance, place := f"{folder}/random-{number}", 3)
        expect_digest(rows, program, f"random tree {number}", Digest.of(directory_message(whole)), place)
        expect_digest(rows, program, f"random tree {number} without bits", Digest.of(directory_message(plain)), "--no-bits", place)
        os.symlink(place, link := f"{place}-link")
        expect_digest(rows, program, f"what a link to random tree {number} leads to", Digest.of(directory_message(whole)), link)
    stores.write_file(large := f"{folder}/large", content := bytes((16 << 20) + 1))
    expect_digest(rows, program, "a file of more than 16 MiB", Digest.of(content), large)
    expect_digest(rows, program, "a file, whose bit doesn't count", Digest.of(NINE), f"{folder}/tree/a")


def try_bad_digests(rows, program, folder):
    """What has no digest is named, as by `put`."""
    deep = "/".join("n" * 65)
    for name, bad, make in [
        ("a fifo", "a", os.mkfifo),
        ("a path of 65 names", deep, lambda path: os.makedirs(os.path.dirname(path)) or stores.write_file(path, b"")),
        ("nothing there", "a", lambda path: None),
    ]:
        with tempfile.TemporaryDirectory(dir=folder) as it:
            make(f"{it}/{bad}")
            told = harness.run(program, "digest", f"{it}/a" if name == "nothing there" else it)
        right = (told.returncode, told.stdout) == (3, b"") and is_error(told.stderr) and f'"{it}/{bad}"'.encode() in told.stderr
        rows.tell(f"{name} has no digest: status 3, and it is named", right, told)


def try_outputs(rows, program, folder):
    """An output that can't be written: status 3 and one line, and no yes."""
    with Server(program) as it:
        for words, output, status in commands(folder, it.address):
            harness.run(program, *words)
            if not output or status:
                continue
            for name, end in (("a full device", ">/dev/full"), ("a closed output", ">&-"), ("a reader that is gone", "> >(:)")):
                # (the reader ends before the program begins)
                shell = ["bash", "-c", f'exec {end}; sleep 0.1; exec "$0" "$@"', program, *words]
                told = subprocess.run(shell, stdin=subprocess.DEVNULL, capture_output=True, timeout=harness.within(60), check=False)
                rows.tell(f"{words[0]} to {name}: status 3", (told.returncode, told.stdout) == (3, b"") and is_error(told.stderr), told)


def try_all(rows, program):
    with tempfile.TemporaryDirectory() as folder:
        os.chmod(folder, 0o755)
        os.makedirs(f"{folder}/tree")
        for name, text in (("tree/a", NINE), ("plan", b"buildplan 1\nroot\nin b src a\n"), ("record", b"buildrecord 1\n")):
            stores.write_file(f"{folder}/{name}", text)
        try_clients(rows, program, folder)
        builds = Builds(program, folder, rows)
        try:
            try_trees(builds)
            try_other_trees(builds)
        finally:
            builds.server.end()
        try_folders(rows, program, folder)
        try_digests(rows, program, folder)
        try_bad_digests(rows, program, folder)
        try_outputs(rows, program, folder)
        try_faults(rows, program)
        try_requests(rows, program, folder)
        try_replies(rows, program, folder)


if __name__ == "__main__":
    try_rows(__doc__, try_all)
