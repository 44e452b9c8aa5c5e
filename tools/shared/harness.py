"""What runs the program, for rows, measures and tests: the program's own server, servers that answer otherwise, and nginx.
Everything listens on 127.0.0.1 alone."""

import hashlib
import http.server
import os
import re
import shutil
import socket
import subprocess
import sys
import tempfile
import threading
import time

from shared.crates import BUILT

PROGRAM = os.environ.get("BUILDCACHE", BUILT)
LOCAL = "127.0.0.1"
# By what the bounds in time are multiplied, for a program that is slower than the one that is built. (end_to_end.py sets the
# variable for the tests that it starts over the preview.)
SLOWNESS = int(os.environ.get("BUILDCACHE_SLOWNESS", "1"))


def within(seconds):
    """The seconds that something may take that takes fewer than these with the built program."""
    return seconds * SLOWNESS


def is_slow():
    """Whether the rows are over a program that is slower than the one that is built."""
    return SLOWNESS > 1


def run(program, *words, seconds=60, env=None):
    """What the program prints, as bytes, and its status, which is None where it hasn't ended by then. What stands at its input is
    for no step."""
    how = {"input": b"for no step\n", "capture_output": True, "check": False, "env": env}
    try:
        return subprocess.run([program, *words], timeout=within(seconds), **how)
    except subprocess.TimeoutExpired as late:
        return subprocess.CompletedProcess(late.cmd, None, late.stdout or b"", late.stderr or b"")


# Runs a program, and tells its seconds, status and greatest memory in KiB. What the system tells of a child's memory is never
# less than its parent's at the start, so the parent is an interpreter that has loaded nothing.
WATCH = """
import os, sys, time
start = time.monotonic()
child = os.posix_spawn(sys.argv[1], sys.argv[1:], os.environ)
_, status, usage = os.wait4(child, 0)
print(time.monotonic() - start, status, usage.ru_maxrss, file=sys.stderr)
"""


def watch(*words, seconds=60):
    """What a program prints on standard output, and the last line of `WATCH`: seconds, status and memory in KiB."""
    watched = [sys.executable, "-ISc", WATCH, *words]
    ran = subprocess.run(watched, capture_output=True, text=True, timeout=within(seconds), check=True)
    took, status, memory = ran.stderr.splitlines()[-1].split()
    return ran.stdout, float(took), int(status), int(memory)


def path_of(blob):
    return f"/cas/{hashlib.sha256(blob).hexdigest()}"


def get(path):
    """A request, as clients send it."""
    return f"GET {path} HTTP/1.1\r\nHost: x\r\n\r\n".encode()


def put(path, body):
    return f"PUT {path} HTTP/1.1\r\nHost: x\r\nContent-Length: {len(body)}\r\n\r\n".encode() + body


def is_error(told):
    """Whether that is one line of an error."""
    return told.startswith(b"error: ") and told.endswith(b"\n") and told.count(b"\n") == 1


def is_told(told, status):
    """Whether standard error is what the status asks for: nothing with 0, at most a line of a note with 1, and else an error."""
    is_note = told.startswith(b"note: ") and told.endswith(b"\n") and told.count(b"\n") == 1
    return is_error(told) if status > 1 else told == b"" or status == 1 and is_note


def standing_at(folder):
    """What stands below a folder: `None` for a folder, a link's target, or a file's bytes and whether it may be run."""
    found = {}
    for above, folders, files in os.walk(folder):
        for name in folders + files:
            path = os.path.join(above, name)
            below = os.path.relpath(path, folder)
            if os.path.islink(path):
                found[below] = os.readlink(path)
            elif os.path.isdir(path):
                found[below] = None
            else:
                with open(path, "rb") as it:
                    found[below] = (it.read(), os.access(path, os.X_OK))
    return found


class Server:
    """The program's own server, on a free port where no address is given, with its errors where they are to go. At the end it is
    awaited where it serves so many connections, or else ended. The program may be words that end in it."""

    def __init__(self, program, connections=None, limit=1 << 30, result_limit=1 << 20, more=(), errors=subprocess.DEVNULL,
                 address=f"{LOCAL}:0"):
        self.is_counted = connections is not None
        words = [program] if isinstance(program, str) else list(program)
        words += ["serve", "--listen", address, "--limit", str(limit), "--result-limit", str(result_limit), *more]
        words += ["--connections", str(connections)] if self.is_counted else []
        how = {"stdin": subprocess.DEVNULL, "stdout": subprocess.PIPE, "stderr": errors, "text": True}
        self.process = subprocess.Popen(words, **how)
        said = self.process.stdout.readline()
        found = re.fullmatch(r"listening 127\.0\.0\.1:(\d+)\n", said)
        if not found:
            self.end()
            raise RuntimeError(f"serve says {said!r} in place of where it listens")
        self.port = int(found[1])
        self.address = f"{LOCAL}:{self.port}"

    def memory(self):
        """Its memory in kB."""
        with open(f"/proc/{self.process.pid}/status", encoding="ascii") as status:
            return next(int(line.split()[1]) for line in status if line.startswith("VmRSS"))

    def wait(self):
        """Its exit status, or None where it goes on."""
        try:
            return self.process.wait(within(5))
        except subprocess.TimeoutExpired:
            return None

    def end(self):
        self.process.kill()
        self.process.wait()
        self.process.stdout.close()

    def __enter__(self):
        return self

    def __exit__(self, *fault):
        if self.is_counted and fault == (None, None, None):
            self.wait()
        self.end()


class Faulty:
    """A server that reads one request, whose head and body are then in `asked`, and answers these bytes; then it closes, resets,
    or stays silent."""

    def __init__(self, answer, ending="close"):
        self.answer, self.ending, self.asked = answer, ending, None
        self.listener = socket.create_server((LOCAL, 0))
        self.address = f"{LOCAL}:{self.listener.getsockname()[1]}"
        self.over = threading.Event()

    def serve(self):
        with self.listener.accept()[0] as it:
            self.asked = message_from(it)
            it.sendall(self.answer)
            if self.ending == "silent":
                self.over.wait(10)
            if self.ending == "reset":
                it.setsockopt(socket.SOL_SOCKET, socket.SO_LINGER, b"\1\0\0\0\0\0\0\0")

    def __enter__(self):
        self.thread = threading.Thread(target=self.serve, daemon=True)
        self.thread.start()
        return self

    def __exit__(self, *fault):
        self.over.set()
        self.thread.join(5)
        self.listener.close()


class Between:
    """A server that hands each request on to another one, and answers what `change` makes of its reply: `change` gets the
    reply's number from 0 on, the request's method and path, and the reply's head and body, and gives the bytes that are
    answered. Where it gives fewer than there were, the connection is closed behind them."""

    def __init__(self, server, change):
        self.server, self.change, self.replies = server, change, 0
        self.listener = socket.create_server((LOCAL, 0))
        self.address = f"{LOCAL}:{self.listener.getsockname()[1]}"

    def serve(self):
        while True:
            try:
                client = self.listener.accept()[0]
            except OSError:
                return
            try:
                with client, socket.create_connection((LOCAL, self.server.port), timeout=within(20)) as beyond:
                    client.settimeout(within(20))
                    self.pass_on(client, beyond)
            except OSError:
                pass

    def pass_on(self, client, beyond):
        while request := message_from(client):
            beyond.sendall(b"".join(request))
            reply = message_from(beyond)
            if not reply:
                return
            method, path = request[0].split(b" ")[:2]
            answer = self.change(self.replies, method.decode(), path.decode(), *reply)
            self.replies += 1
            client.sendall(answer)
            if len(answer) < len(b"".join(reply)):
                return

    def __enter__(self):
        self.thread = threading.Thread(target=self.serve, daemon=True)
        self.thread.start()
        return self

    def __exit__(self, *fault):
        self.listener.shutdown(socket.SHUT_RDWR)
        self.listener.close()
        self.thread.join(5)


def message_from(stream):
    """The head and the body of the next request or reply of a stream, or None at its end."""
    head = b""
    while b"\r\n\r\n" not in head:
        piece = stream.recv(65536)
        if not piece:
            return None
        head += piece
    head, _, body = head.partition(b"\r\n\r\n")
    lengths = re.findall(rb"(?im)^content-length: *(\d+)", head)
    while len(body) < int(lengths[0] if lengths else 0):
        piece = stream.recv(1 << 20)
        if not piece:
            return None
        body += piece
    return head + b"\r\n\r\n", body


class Keeper:
    """A cache over HTTP that checks nothing: it keeps what is put, in `held` by path, answers `taken`, and refuses the paths in
    `refused`."""

    class Handler(http.server.BaseHTTPRequestHandler):
        protocol_version = "HTTP/1.1"

        def do_GET(self):
            content = self.server.keeper.held.get(self.path)
            self.answer(404 if content is None else 200, content or b"")

        def do_PUT(self):
            content = self.rfile.read(int(self.headers["Content-Length"]))
            is_refused = self.path in self.server.keeper.refused
            if not is_refused:
                self.server.keeper.held[self.path] = content
            self.answer(507 if is_refused else self.server.keeper.taken, b"")

        def answer(self, status, content):
            self.send_response(status)
            self.send_header("Content-Length", str(len(content)))
            self.end_headers()
            self.wfile.write(content)

        def log_message(self, *words):
            pass

    def __init__(self):
        self.held, self.refused, self.taken = {}, set(), 201
        self.server = http.server.ThreadingHTTPServer((LOCAL, 0), self.Handler)
        self.server.keeper = self
        self.address = f"{LOCAL}:{self.server.server_address[1]}"

    def __enter__(self):
        threading.Thread(target=self.server.serve_forever, daemon=True).start()
        return self

    def __exit__(self, *fault):
        self.server.shutdown()
        self.server.server_close()


NGINX = """
daemon off;
worker_processes 1;
pid {folder}/pid;
error_log {folder}/error.log;
events {}
http {
    access_log off;
    client_max_body_size 16m;
    client_body_buffer_size 16m;
    client_body_temp_path {folder}/body;
    keepalive_requests 100000000;
    server {
        listen 127.0.0.1:{port};
        root {folder}/store;
        location / { dav_methods PUT; create_full_put_path on; }
    }
}
"""


class Nginx:
    """nginx in a folder of its own, as a text says where that and its port stand: without one with WebDAV, as a store that checks
    nothing."""

    def __init__(self, within=None, text=NGINX):
        self.folder = tempfile.mkdtemp(dir=within)
        with socket.socket() as free:
            free.bind((LOCAL, 0))
            self.port = free.getsockname()[1]
        self.address = f"{LOCAL}:{self.port}"
        os.mkdir(f"{self.folder}/store")
        for it in (self.folder, f"{self.folder}/store"):
            os.chmod(it, 0o777)
        with open(f"{self.folder}/conf", "w", encoding="utf-8") as out:
            out.write(text.replace("{folder}", self.folder).replace("{port}", str(self.port)))
        words = ["nginx", "-c", f"{self.folder}/conf", "-e", f"{self.folder}/error.log"]
        self.process = subprocess.Popen(words, stderr=subprocess.DEVNULL)
        for _ in range(100):
            try:
                socket.create_connection((LOCAL, self.port)).close()
                return
            except ConnectionRefusedError:
                time.sleep(0.05)
        self.end()
        raise RuntimeError("nginx doesn't listen")

    def end(self):
        self.process.terminate()
        self.process.wait()
        shutil.rmtree(self.folder)

    def __enter__(self):
        return self

    def __exit__(self, *fault):
        self.end()
