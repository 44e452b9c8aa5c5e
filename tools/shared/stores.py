"""Where blobs and results are put, by their hashes: a store folder, or a cache over HTTP."""

import contextlib
import http.client
import os
import re

from shared.command_line import NotAnswered, Once, Refused, place_of


class FolderStore:
    """A store folder, of files cas/HASH and ac/HASH."""

    def __init__(self, folder):
        self.folder, self.parts_made = folder, set()

    def words(self):
        """The words by which the program is told of it."""
        return ["--store", self.folder]

    def place(self, part, name):
        return f"{self.folder}/{part}/{name}"

    def get(self, part, name):
        """The bytes under a name, or None."""
        if not os.path.exists(self.place(part, name)):
            return None
        return read_file(self.place(part, name))

    def put(self, part, name, content):
        if part not in self.parts_made:
            os.makedirs(os.path.join(self.folder, part), exist_ok=True)
            self.parts_made.add(part)
        # (whole or not at all: another program may read this store)
        new = f"{self.place(part, name)}.new{os.getpid()}"
        try:
            write_file(new, content)
            os.replace(new, self.place(part, name))
        except BaseException:
            forget(new)
            raise

    def close(self):
        pass


class ServerStore:
    """A cache over HTTP, of PREFIX/cas/HASH and PREFIX/ac/HASH: one request after another on one connection."""

    def __init__(self, address, prefix):
        self.address, self.prefix = address, prefix
        self.connection = http.client.HTTPConnection(address, timeout=60)

    def words(self):
        return ["--server", self.address, *(["--prefix", self.prefix] if self.prefix else [])]

    def place(self, part, name):
        return f"http://{self.address}{self.prefix}/{part}/{name}"

    def ask(self, method, part, name, content=None):
        """The status and the body of the answer."""
        try:
            self.connection.request(method, f"{self.prefix}/{part}/{name}", content)
            answer = self.connection.getresponse()
            return answer.status, answer.read()
        except (OSError, UnicodeError, http.client.HTTPException) as fault:
            raise NotAnswered(f"{method} {self.place(part, name)}: {fault or type(fault).__name__}") from None

    def get(self, part, name):
        """The bytes under a name, or None."""
        status, content = self.ask("GET", part, name)
        if status not in (200, 404):
            raise NotAnswered(f"GET {self.place(part, name)}: the server answers {status}")
        return content if status == 200 else None

    def put(self, part, name, content):
        status, _ = self.ask("PUT", part, name, content)
        if status not in (200, 201, 202, 204):
            raise NotAnswered(f"PUT {self.place(part, name)}: the server answers {status}")

    def close(self):
        self.connection.close()


class ServerAndFolder:
    """Blobs in a cache over HTTP, and results in a folder. A blob is told by its hash, whoever put it; of a result nothing tells
    that another one was put in its place, so the server is neither asked for results nor given any."""

    def __init__(self, server, folder):
        self.parts = {"cas": server, "ac": folder}

    def words(self):
        """The words by which the program is told of the server; `--results` tells it of the folder."""
        return self.parts["cas"].words()

    def place(self, part, name):
        return self.parts[part].place(part, name)

    def get(self, part, name):
        return self.parts[part].get(part, name)

    def put(self, part, name, content):
        self.parts[part].put(part, name, content)

    def close(self):
        self.parts["cas"].close()


def is_address(text):
    """Whether a text is HOST:PORT, as the program takes it."""
    return re.fullmatch(r"[A-Za-z0-9._~!$&'()*+,;=%:\[\]-]+:0*[0-9]{1,5}", text) is not None and int(text.rpartition(":")[2]) < 65536


def is_prefix(text):
    """Whether a text may stand before /cas and /ac: nothing, or segments of plain characters, 256 bytes at most."""
    return len(text) <= 256 and re.fullmatch("(/[A-Za-z0-9._~-]+)*", text) is not None


def add_options(parser, folder_help="where the files are written, if not as --archive FILE; it is made if it isn't there"):
    """The word FOLDER, and the options that name a store: a folder, by default FOLDER/store, or for blobs a server. The word."""
    word = parser.add_argument("folder", metavar="FOLDER", type=place_of, help=folder_help)
    places = parser.add_mutually_exclusive_group()
    places.add_argument(
        "--store", metavar="STORE", action=Once, type=place_of, help="the store folder, in place of FOLDER/store; it may hold other builds"
    )
    add_server(parser, "a cache over HTTP for blobs, at /cas/HASH; results are in FOLDER/store then, and never on the server", places)
    return word


def add_server(parser, server_help, places=None):
    """The options of a cache over HTTP; `places` are those of which one is taken."""
    (places or parser).add_argument("--server", metavar="HOST:PORT", action=Once, help=server_help)
    parser.add_argument(
        "--prefix", metavar="PREFIX", default="", action=Once, help="what stands before these paths on the server"
    )


def store_of(options, own=None):
    """The store that the options name; the `own` one is that of an archive, in place of FOLDER/store."""
    folder = FolderStore(options.store) if options.store else own or FolderStore(os.path.join(options.folder, "store"))
    if options.server is None:
        if options.prefix:
            raise Refused("--prefix is for --server")
        return folder
    if not is_prefix(options.prefix):
        raise Refused(f"{options.prefix!r} is no prefix, as /cache/main")
    if not is_address(options.server):
        raise Refused(f"{options.server!r} is no server's address, HOST:PORT")
    return ServerAndFolder(ServerStore(options.server, options.prefix), folder)


def forget(path):
    """Removes a file where it is there."""
    with contextlib.suppress(FileNotFoundError):
        os.remove(path)


def read_file(path):
    with open(path, "rb") as it:
        return it.read()


def write_file(path, content):
    with open(path, "wb", buffering=0) as out:
        while content:
            content = content[out.write(content):]


def text_of(lines):
    return "".join(f"{line}\n" for line in lines).encode()


def write_texts(folder, texts):
    """Writes files of a folder, which is made if it isn't there: by each name its lines."""
    os.makedirs(folder, exist_ok=True)
    for name, lines in texts.items():
        write_file(os.path.join(folder, name), text_of(lines))
