#!/usr/bin/python3
"""Prints files of rows of crates/test_messages/data: messages of these kinds as Python's protobuf encodes them.

By hand, with Debian's protobuf-compiler and python3-protobuf (tried with 3.21.12):

    protoc --python_out=/tmp action_messages.proto
    PYTHONPATH=/tmp ./action_vectors.py Platform Command Frame Action > ../../crates/test_messages/data/action_messages
    PYTHONPATH=/tmp ./action_vectors.py Result > ../../crates/test_messages/data/action_results

The bytes are protobuf's. Which of them are refused, and how, is read from docs/FORMATS.md. A row
that is accepted comes to the same bytes; one of a result, which is read tolerantly, to what protobuf
itself reads and writes again, without the fields that are skipped and with each list in order.
"""

import hashlib

from shared.command_line import fail, words_of

KINDS = words_of(__doc__, 1)

try:
    from action_messages_pb2 import (
        Action,
        ActionResult,
        Command,
        Digest,
        ExecutedActionMetadata,
        OutputDirectory,
        OutputFile,
        OutputSymlink,
        Platform,
        Timestamp,
    )
except ImportError as fault:
    fail(3, f"{fault}; --help tells how protoc makes it")

NINE = "15e2b0d3c33891ebb0f1ef609ec419420c20e320ce94c65fbc8c3312448eb225"
LINE = "01ba4719c80b6fe911b091a7c05124b64eeece964e09c058ef8f9805daca546b"
EMPTY = "e3b0c44298fc1c149afbf4c8996fb92427ae41e4649b934ca495991b7852b855"
HASHES = {NINE: "NINE", LINE: "LINE", EMPTY: "EMPTY"}

nine = Digest(hash=NINE, size_bytes=9)
line = Digest(hash=LINE, size_bytes=1)
empty = Digest(hash=EMPTY)
# The Tree of a root that has the file `a` of nine bytes.
TREE = b"\x0a\x4b\x0a\x49\x0a\x01a\x12\x44\x0a\x40" + NINE.encode() + b"\x10\x09"
tree = Digest(hash=hashlib.sha256(TREE).hexdigest(), size_bytes=len(TREE))
upper = Digest(hash=NINE.upper(), size_bytes=9)

UNSORTED = "Unsorted"
SAME = "SameName"
BAD_PATH = "BadPath"
DEFAULT = "Wire(DefaultWritten)"
RANGE = "Wire(OutOfRange)"
ORDER = "Wire(OutOfOrder)"
REPEATED = "Wire(Repeated)"
UTF8 = "Wire(BadUtf8)"
BAD_HEX = "BadDigest(BadHex)"


def unsupported(number):
    return f"Unsupported({number})"


def missing(number):
    return f"MissingField({number})"


def bad_text(number):
    return f"BadText({number})"


def platform(*pairs):
    return Platform(properties=[Platform.Property(name=n, value=v) for n, v in pairs])


def command(arguments=("/bin/true",), environment=(), directory="", outputs=(), **others):
    return Command(
        arguments=arguments,
        environment_variables=[
            Command.EnvironmentVariable(name=n, value=v) for n, v in environment
        ],
        working_directory=directory,
        output_paths=outputs,
        **others,
    )


def files(*paths):
    return [OutputFile(path=path, digest=nine) for path in paths]


def directories(*paths):
    return [OutputDirectory(path=path, tree_digest=nine) for path in paths]


def symlinks(*paths):
    return [OutputSymlink(path=path, target="t") for path in paths]


def result(f=(), d=(), l=(), **others):
    return ActionResult(
        output_files=files(*f),
        output_directories=directories(*d),
        output_symlinks=symlinks(*l),
        **others,
    )


frame = Action(command_digest=line)
action = Action(command_digest=line, input_root_digest=empty)

# What a worker writes beside a result.
metadata = ExecutedActionMetadata(
    worker="w1",
    queued_timestamp=Timestamp(seconds=1700000000, nanos=500),
    worker_completed_timestamp=Timestamp(seconds=1700000009),
)


def joined(*messages):
    """The messages one after another: protobuf reads them as one."""
    return b"".join(m if isinstance(m, bytes) else m.SerializeToString() for m in messages)


def longer(number, value, groups):
    """A varint field whose value has so many groups of seven bits."""
    bytes_ = bytes((value >> 7 * i & 127) | (128 if i < groups - 1 else 0) for i in range(groups))
    return bytes([number << 3]) + bytes_


def field(number, payload):
    """A field of bytes, with a length of three groups."""
    size = len(payload)
    return bytes([number << 3 | 2, size & 127 | 128, size >> 7 | 128, 0]) + payload


# A kind, a message or bytes, and the refusal, if any.
ROWS = [
    ("Platform", platform(), None),
    ("Platform", platform(("a", ""), ("a", "1"), ("b", "")), None),
    ("Platform", platform(("", "x"), ("\uff5e", ""), ("\U0001f600", "\0")), None),
    ("Platform", platform(("b", ""), ("a", "")), UNSORTED),
    ("Platform", platform(("a", "1"), ("a", "")), UNSORTED),
    ("Platform", platform(("a", "1"), ("a", "1")), UNSORTED),
    ("Platform", b"\x12\x00", unsupported(2)),
    ("Platform", b"\x0a\x02\x0a\x00", DEFAULT),
    ("Platform", b"\x0a\x03\x0a\x01\xff", UTF8),
    ("Command", command(outputs=["out"]), None),
    ("Command", command(environment=[("A", "")]), None),
    (
        "Command",
        command(
            ["/bin/sh", "-c", ""],
            [("A", "1=2"), ("B", ""), ("b", "\u00e9")],
            "a/b",
            ["a-b", "a/x", "\uff5e", "\U0001f600"],
        ),
        None,
    ),
    ("Command", b"", missing(1)),
    ("Command", command([], [("=", "")], "/"), missing(1)),
    ("Command", command(outputs=["o", "o/p"]), SAME),
    ("Command", command(outputs=["o/p", "o"]), UNSORTED),
    ("Command", command(outputs=["o", "o"]), UNSORTED),
    ("Command", command(outputs=["a", "a!x", "a/b"]), SAME),
    ("Command", command(outputs=["a-b", "a/b", "a0"]), None),
    ("Command", command(outputs=["\U0001f600", "\uff5e"]), UNSORTED),
    ("Command", command([""]), bad_text(1)),
    ("Command", command(["a", "\0"]), bad_text(1)),
    ("Command", command(environment=[("", "x")]), bad_text(2)),
    ("Command", command(environment=[("a=b", "")], directory="/"), bad_text(2)),
    ("Command", command(environment=[("a\0", "")]), bad_text(2)),
    ("Command", command(environment=[("a", "\0")]), bad_text(2)),
    ("Command", command(environment=[("B", ""), ("A", "")]), UNSORTED),
    ("Command", command(environment=[("A", "1"), ("A", "2")], outputs=["b", "a"]), SAME),
    ("Command", command(environment=[("B", ""), ("A", "")], directory="a/"), BAD_PATH),
    ("Command", command(outputs=["b", "a", ""]), BAD_PATH),
    ("Command", command(directory="."), BAD_PATH),
    ("Command", command(output_files=["out"]), unsupported(3)),
    ("Command", command(platform=platform(("a", ""))), unsupported(5)),
    ("Command", b"\x12\x02\x1a\x00", unsupported(3)),
    ("Command", b"\x12\x03\x0a\x01A\x0a\x01a", ORDER),
    ("Command", b"\x0a\x01a\x32\x00", DEFAULT),
    ("Command", b"\x0a\x01a\x32\x01b\x32\x01b", REPEATED),
    ("Frame", frame, None),
    ("Frame", Action(command_digest=line, do_not_cache=True), None),
    (
        "Frame",
        Action(
            command_digest=line,
            do_not_cache=True,
            salt=b"\0\xff",
            platform=platform(("a", "1")),
        ),
        None,
    ),
    ("Frame", Action(command_digest=line, platform=Platform()), DEFAULT),
    ("Frame", action, unsupported(2)),
    ("Frame", b"", missing(1)),
    ("Frame", Action(platform=platform(("b", ""), ("a", ""))), UNSORTED),
    ("Frame", Action(command_digest=upper), BAD_HEX),
    ("Frame", b"\x38\x00", DEFAULT),
    ("Frame", b"\x38\x02", RANGE),
    ("Frame", b"\x4a\x00", DEFAULT),
    ("Action", action, None),
    ("Action", Action(command_digest=line, input_root_digest=empty, do_not_cache=True), None),
    (
        "Action",
        Action(
            command_digest=line,
            input_root_digest=nine,
            do_not_cache=True,
            salt=b"salt",
            platform=platform(("a", "1")),
        ),
        None,
    ),
    ("Action", frame, missing(2)),
    ("Action", Action(input_root_digest=empty), missing(1)),
    ("Action", b"", missing(1)),
    ("Action", action.SerializeToString() + b"\x32\x00", unsupported(6)),
    ("Action", Action(platform=Platform()), DEFAULT),
    ("Action", Action(command_digest=upper, input_root_digest=upper), BAD_HEX),
    ("Result", b"", None),
    ("Result", ActionResult(exit_code=-1), None),
    ("Result", ActionResult(exit_code=2147483647), None),
    ("Result", ActionResult(exit_code=-2147483648), None),
    (
        "Result",
        ActionResult(output_directories=[OutputDirectory(path="out", tree_digest=tree)]),
        None,
    ),
    ("Result", result(f=["f"]), None),
    (
        "Result",
        ActionResult(
            output_files=[
                OutputFile(path="a-b", digest=nine),
                OutputFile(path="a/b", digest=line, is_executable=True),
            ],
            output_directories=[OutputDirectory(path="d", tree_digest=line)],
            exit_code=3,
            stdout_raw=b"out\n",
            stdout_digest=nine,
            stderr_raw=b"\xff",
            stderr_digest=empty,
            output_symlinks=[OutputSymlink(path="a/l", target="../x")],
        ),
        None,
    ),
    ("Result", result(f=["b", "a"]), None),
    ("Result", result(f=["a", "a"]), SAME),
    ("Result", result(d=["b", "a"]), None),
    ("Result", result(l=["b", "a"]), None),
    ("Result", result(f=["a", "a/b"]), SAME),
    ("Result", result(d=["a", "a!x", "a/b"]), SAME),
    ("Result", result(l=["a", "a/b/c"]), SAME),
    ("Result", result(f=["o"], d=["o"]), SAME),
    ("Result", result(f=["o"], l=["o"]), SAME),
    ("Result", result(d=["o"], l=["o"]), SAME),
    ("Result", result(f=["o/p"], d=["o"]), SAME),
    ("Result", result(f=["o"], l=["o/p"]), SAME),
    ("Result", result(d=["o"], l=["a", "o/p/q"]), SAME),
    ("Result", result(d=["o/p"], l=["a", "o", "p"]), SAME),
    ("Result", result(f=["o", "o/p"], l=["b", "a"]), SAME),
    ("Result", result(f=["a"], d=["a-b"], l=["a!"]), None),
    ("Result", ActionResult(output_files=[OutputFile(path="..")]), missing(2)),
    ("Result", ActionResult(output_files=[OutputFile(digest=nine)]), BAD_PATH),
    ("Result", ActionResult(output_directories=[OutputDirectory(path="d")]), missing(3)),
    ("Result", ActionResult(output_symlinks=[OutputSymlink(path="l")]), BAD_PATH),
    ("Result", ActionResult(output_symlinks=[OutputSymlink(target="t")]), BAD_PATH),
    (
        "Result",
        ActionResult(output_files=[OutputFile(path="f", digest=nine, contents=b"1")]),
        unsupported(5),
    ),
    (
        "Result",
        ActionResult(
            output_directories=[
                OutputDirectory(path="d", tree_digest=nine, is_topologically_sorted=True)
            ]
        ),
        None,
    ),
    ("Result", ActionResult(stderr_digest=upper), BAD_HEX),
    ("Result", ActionResult(execution_metadata=metadata), None),
    ("Result", b"\x52\x00", unsupported(10)),
    ("Result", b"\x20\x00", None),
    ("Result", b"\x20\x80\x80\x80\x80\x08", None),
    ("Result", b"\x20\xff\xff\xff\xff\x0f", None),
    ("Result", b"\x2a\x00", None),
    # Fields in another order, as from several messages.
    (
        "Result",
        joined(
            result(l=["z", "m/l"]),
            ActionResult(execution_metadata=metadata, stderr_raw=b"e"),
            result(f=["f", "b/c"]),
            ActionResult(exit_code=-7),
            result(d=["e", "d"], f=["b/a"]),
            ActionResult(exit_code=7, stderr_raw=b"rr"),
        ),
        None,
    ),
    # A message whose fields come in several occurrences.
    (
        "Result",
        joined(
            ActionResult(stdout_digest=Digest(size_bytes=9)),
            ActionResult(exit_code=1),
            ActionResult(stdout_digest=Digest(hash=NINE)),
        ),
        None,
    ),
    (
        "Result",
        field(
            2,
            joined(
                OutputFile(is_executable=True),
                OutputFile(digest=Digest(hash=LINE, size_bytes=1)),
                OutputFile(path="g"),
                OutputFile(digest=Digest(hash=NINE)),
                OutputFile(path="f"),
                longer(4, 0, 3),
            ),
        ),
        None,
    ),
    (
        "Result",
        field(3, joined(OutputDirectory(tree_digest=nine, is_topologically_sorted=True), b"\x0a\x01d")),
        None,
    ),
    ("Result", field(12, joined(OutputSymlink(target="t"), OutputSymlink(path="l"))), None),
    # Numbers in more groups than they need, and beyond 32 bits.
    ("Result", longer(4, 5, 10), None),
    ("Result", longer(4, 2**63 + 2**32 + 9, 10), None),
    ("Result", joined(longer(4, 3, 2), longer(4, 0, 5)), None),
]


def spelled(data):
    """The bytes as a field of a row."""
    text = "".join(chr(b) if 32 <= b < 127 and b != ord("\\") else f"\\x{b:02x}" for b in data)
    if text.startswith(" "):
        text = "\\x20" + text[1:]
    for value, name in HASHES.items():
        text = text.replace(value, f"{{{name}}}")
    return text


def again(data):
    """What protobuf reads, written without the fields that are skipped, each list in order."""
    read = ActionResult.FromString(data)
    read.ClearField("execution_metadata")
    for directory in read.output_directories:
        directory.ClearField("is_topologically_sorted")
    for outputs in (read.output_files, read.output_directories, read.output_symlinks):
        outputs.sort(key=lambda output: output.path.encode())
    return read.SerializeToString(deterministic=True)


def row(kind, message, refusal):
    data = message if isinstance(message, bytes) else message.SerializeToString(deterministic=True)
    answer = refusal
    if not refusal:
        same = kind != "Result" or again(data) == data
        answer = "same" if same else spelled(again(data))
    return f"{kind} | {spelled(data)} | {answer}"


subject = "Results" if KINDS == ["Result"] else "Messages of steps"
print(f"# {subject} as protobuf encodes them, and whether they are written again with the same")
print("# bytes; else with which, or why they are refused. tools/end_to_end/action_vectors.py prints this file.")
rows = {kind: [row(*found) for found in ROWS if found[0] == kind] for kind in KINDS}
text = "\n\n".join("\n".join(rows[kind]) for kind in KINDS)
for value, name in HASHES.items():
    if f"{{{name}}}" in text:
        print(f"{{{name}}} := {value}")
print()
print(text)
