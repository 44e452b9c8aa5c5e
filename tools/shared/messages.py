"""Messages of the remote execution API, in the one encoding that docs/FORMATS.md has for each: fields by number, defaults
left out. It is protobuf's, written by hand and by nothing of the crates."""

import functools
import hashlib
from typing import NamedTuple


SHORT = [bytes([it]) for it in range(0x80)]


def varint(number):
    if number < 0x80:
        return SHORT[number]
    groups = bytearray()
    while number >= 0x80:
        groups.append(number & 0x7F | 0x80)
        number >>= 7
    groups.append(number)
    return bytes(groups)


def bytes_field(number, payload):
    """A field of bytes, a text or a message, written even where it is empty."""
    return varint(number << 3 | 2) + varint(len(payload)) + payload


def text_field(number, text):
    return bytes_field(number, text.encode()) if text else b""


def number_field(number, value):
    """A field of a number that isn't 0; one below 0 as its two's complement of 64 bits."""
    return varint(number << 3) + varint(value & 0xFFFFFFFFFFFFFFFF) if value else b""


class Digest(NamedTuple):
    hash: str
    size: int

    @staticmethod
    def of(blob):
        return Digest(hashlib.sha256(blob).hexdigest(), len(blob))

    def text(self):
        return f"{self.hash}/{self.size}"

    @functools.lru_cache(maxsize=65536)
    def message(self):
        return text_field(1, self.hash) + number_field(2, self.size)


EMPTY = Digest.of(b"")


class File(NamedTuple):
    """A file's contents, by their digest, and whether it may be run."""

    digest: Digest
    is_executable: bool = True

    def fields_behind_name(self):
        """The rest of a FileNode, and of an OutputFile."""
        return bytes_field(2, self.digest.message()) + number_field(4, int(self.is_executable))


class Link(NamedTuple):
    """A symbolic link, by its target."""

    target: str

    def fields_behind_name(self):
        """The rest of a SymlinkNode, and of an OutputSymlink."""
        return text_field(2, self.target)


def settings(number, pairs):
    """EnvironmentVariables of a Command, or Properties of a Platform."""
    return b"".join(bytes_field(number, text_field(1, name) + text_field(2, value)) for name, value in pairs)


def command_message(arguments, outputs, environment=(), folder=""):
    words = b"".join(bytes_field(1, it.encode()) for it in arguments)
    return words + settings(2, environment) + text_field(6, folder) + b"".join(text_field(7, it) for it in outputs)


def action_message(command, input_root=None, is_cacheable=True, platform=()):
    """An Action by the digests of its Command and its input; without an input root, a frame."""
    root = bytes_field(2, input_root.message()) if input_root else b""
    rest = bytes_field(10, settings(1, platform)) if platform else b""
    return bytes_field(1, command.message()) + root + number_field(7, int(not is_cacheable)) + rest


@functools.lru_cache(maxsize=65536)
def node_field(name, entry):
    """The field of a Directory that has a file or a link. Many Directories have one, so it is kept."""
    return bytes_field(1 if isinstance(entry, File) else 3, text_field(1, name) + entry.fields_behind_name())


def directory_message(entries, keep=Digest.of):
    """The Directory of a dictionary from names to files, links and such dictionaries; each Directory below is kept. What
    stands for a dictionary may be its Directory's digest."""
    files, directories, links = [], [], []
    for name, entry in sorted(entries.items()):
        if isinstance(entry, File):
            files.append(node_field(name, entry))
        elif isinstance(entry, Link):
            links.append(node_field(name, entry))
        else:
            below = entry if isinstance(entry, Digest) else keep(directory_message(entry, keep))
            directories.append(bytes_field(2, text_field(1, name) + bytes_field(2, below.message())))
    return b"".join([*files, *directories, *links])


def tree_message(entries):
    """The Tree of an output directory: its own Directory, and each below it once."""
    children = {}

    def keep(blob):
        children.setdefault(digest := Digest.of(blob), blob)
        return digest

    root = directory_message(entries, keep)
    return bytes_field(1, root) + b"".join(bytes_field(2, child) for child in children.values())


def result_message(outputs, exit_code=0, keep=Digest.of):
    """An ActionResult of outputs by path: files, links, and dictionaries, whose Trees are kept. What stands for a dictionary
    may be its Tree's digest."""
    fields = {2: [], 3: [], 12: []}
    for path, entry in sorted(outputs.items()):
        if isinstance(entry, (dict, Digest)):
            tree = entry if isinstance(entry, Digest) else keep(tree_message(entry))
            fields[3].append(text_field(1, path) + bytes_field(3, tree.message()))
        else:
            number = 2 if isinstance(entry, File) else 12
            fields[number].append(text_field(1, path) + entry.fields_behind_name())
    lists = {number: b"".join(bytes_field(number, it) for it in messages) for number, messages in fields.items()}
    return lists[2] + lists[3] + number_field(4, exit_code) + lists[12]
