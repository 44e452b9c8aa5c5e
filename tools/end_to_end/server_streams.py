"""The streams of requests of server_rows.py, and their exact answers, worked by hand: what a fresh server is sent, what one where
room is short, and heads that close the connection or leave it open.
"""

from shared.builds import NINE, directory
from shared.harness import get, path_of, put
from shared.messages import Digest, File, bytes_field, result_message

DIGITS = "15e2b0d3c33891ebb0f1ef609ec419420c20e320ce94c65fbc8c3312448eb225"
NO_BYTES = "e3b0c44298fc1c149afbf4c8996fb92427ae41e4649b934ca495991b7852b855"
FEED = "01ba4719c80b6fe911b091a7c05124b64eeece964e09c058ef8f9805daca546b"
KEY = "0" * 64
TREE = bytes_field(1, directory("a"))
TREE_HASH = "b702720dfa91251d7827a7c362e98aec2fbb92800b4cd6d796eb0b8b84a40cb7"
RESULT = result_message({"out": Digest(TREE_HASH, 77)})
DONE = b"HTTP/1.1 200 OK\r\nContent-Length: 0\r\n\r\n"
ABSENT = b"HTTP/1.1 404 Not Found\r\nContent-Length: 0\r\n\r\n"
BAD = b"HTTP/1.1 400 Bad Request\r\nContent-Length: 0\r\n\r\n"


def found(body):
    return f"HTTP/1.1 200 OK\r\nContent-Length: {len(body)}\r\n\r\n".encode() + body


# A stream to a fresh server, and all that it is answered.
STREAMS = {
    "a blob that is put and got": (
        put(f"/cas/{DIGITS}", NINE) + get(f"/cas/{DIGITS}"),
        DONE + found(NINE),
    ),
    "a blob under another hash is refused, and isn't there": (
        put(f"/cas/{FEED}", NINE) + get(f"/cas/{FEED}") + get(f"/cas/{DIGITS}"),
        BAD + ABSENT + ABSENT,
    ),
    "a result is answered once its Tree and its file are held": (
        put(f"/ac/{KEY}", RESULT) + get(f"/ac/{KEY}") + put(f"/cas/{TREE_HASH}", TREE) + get(f"/ac/{KEY}")
        + put(f"/cas/{DIGITS}", NINE) + get(f"/ac/{KEY}"),
        DONE + ABSENT + DONE + ABSENT + DONE + found(RESULT),
    ),
}


ONE_FILE = result_message({"f": File(Digest(DIGITS, 9), is_executable=False)})
KEYS = [str(it) * 64 for it in range(2)]
TWELVE, ELEVEN = b"abcdefghijkl", b"abcdefghijk"
CONFLICT = b"HTTP/1.1 409 Conflict\r\nContent-Length: 0\r\n\r\n"
FULL = b"HTTP/1.1 507 Insufficient Storage\r\nContent-Length: 0\r\n\r\n"


# The same where room is short: the limits of blobs and results, a stream, and all that it is answered.
SHORT = {
    "what a pinned result refers to stays": (
        20, 1000,
        put(f"/cas/{DIGITS}", NINE) + put(f"/ac/{KEY}", ONE_FILE) + put(f"/pin/{KEY}", b"") + put(path_of(TWELVE), TWELVE)
        + put(path_of(ELEVEN), ELEVEN) + put(f"/ac/{KEY}", RESULT) + 2 * put(f"/unpin/{KEY}", b""),
        DONE * 3 + FULL + DONE + CONFLICT + DONE + ABSENT,
    ),
    "until no pinned one does": (
        20, 1000,
        put(f"/cas/{DIGITS}", NINE) + b"".join(put(f"/ac/{it}", ONE_FILE) + put(f"/pin/{it}", b"") for it in KEYS)
        + put(f"/unpin/{KEYS[0]}", b"") + put(path_of(TWELVE), TWELVE) + get(f"/cas/{DIGITS}")
        + put(f"/unpin/{KEYS[1]}", b"") + put(path_of(TWELVE), TWELVE) + get(f"/cas/{DIGITS}") + put(f"/pin/{KEYS[0]}", b""),
        DONE * 6 + FULL + found(NINE) + DONE + DONE + ABSENT + ABSENT,
    ),
    "what was used least recently is evicted": (
        20, 1000,
        put(f"/cas/{DIGITS}", NINE) + put(path_of(ELEVEN), ELEVEN) + get(f"/cas/{DIGITS}") + put(f"/cas/{FEED}", b"\n")
        + get(f"/cas/{DIGITS}") + get(path_of(ELEVEN)),
        DONE * 2 + found(NINE) + DONE + found(NINE) + ABSENT,
    ),
    "a result costs its length and 64": (20, 138, put(f"/ac/{KEY}", ONE_FILE), FULL),
    "which may be the whole limit": (20, 139, put(f"/ac/{KEY}", ONE_FILE), DONE),
}


def head(first, *fields):
    return "\r\n".join([first, "Host: x", *fields, "", ""]).encode()


def refused(reason, *fields):
    """The answer after which the connection is closed."""
    return "\r\n".join([f"HTTP/1.1 {reason}", "Content-Length: 0", *fields, "Connection: close", "", ""]).encode()


ASKS, PUTS = f"GET /cas/{NO_BYTES} HTTP/1.1", f"PUT /cas/{FEED} HTTP/1.1"
LARGEST = 16777216
NO_METHOD = ("405 Method Not Allowed", "Allow: GET, PUT")
# Requests that close their connection, with their answers.
REFUSED = {
    "HEAD": (head(f"HEAD /cas/{NO_BYTES} HTTP/1.1"), NO_METHOD),
    "POST": (head(f"POST /cas/{FEED} HTTP/1.1", "Content-Length: 1") + b"\n", NO_METHOD),
    "OPTIONS": (head("OPTIONS * HTTP/1.1"), NO_METHOD),
    "a method in lower case": (head(ASKS.lower().replace("http", "HTTP")), NO_METHOD),
    "HTTP/1.0": (head(ASKS.replace("1.1", "1.0")), ("505 HTTP Version Not Supported",)),
    "HTTP/2": (b"PRI * HTTP/2.0\r\n\r\nSM\r\n\r\n", ("400 Bad Request",)),
    "no host": (f"{ASKS}\r\n\r\n".encode(), ("400 Bad Request",)),
    "two hosts": (head(ASKS, "Host: y"), ("400 Bad Request",)),
    "a chunked body": (head(PUTS, "Transfer-Encoding: chunked") + b"1\r\n\n\r\n0\r\n\r\n", ("501 Not Implemented",)),
    "Expect": (head(PUTS, "Content-Length: 1", "Expect: 100-continue") + b"\n", ("417 Expectation Failed",)),
    "no length": (head(PUTS) + b"\n", ("411 Length Required",)),
    "two lengths": (head(PUTS, "Content-Length: 1", "Content-Length: 1") + b"\n", ("400 Bad Request",)),
    "a length of 20 digits": (head(PUTS, "Content-Length: " + "0" * 19 + "1") + b"\n", ("400 Bad Request",)),
    "GET with a body": (head(ASKS, "Content-Length: 1") + b"\n", ("400 Bad Request",)),
    "a body of 16,777,217 bytes": (head(PUTS, f"Content-Length: {LARGEST + 1}") + bytes(LARGEST + 1), ("413 Content Too Large",)),
    "PUT elsewhere": (put("/other", NINE), ("404 Not Found",)),
    "65 fields": (head(ASKS, *("a: b" for _ in range(64))), ("431 Request Header Fields Too Large",)),
    "a head of 16,385 bytes": (head(ASKS, "a: " + "b" * (16385 - len(head(ASKS, "a: ")))), ("431 Request Header Fields Too Large",)),
    "line ends without CR": (f"{ASKS}\nHost: x\n\n".encode() + get("/"), ("400 Bad Request",)),
}
# Requests that leave it open.
LEFT_OPEN = {
    "64 fields": (head(ASKS, *("a: b" for _ in range(63))), found(b"")),
    "a head of 16,384 bytes": (head(ASKS, "a: " + "b" * (16384 - len(head(ASKS, "a: ")))), found(b"")),
    "a query": (get(f"/cas/{NO_BYTES}?a"), ABSENT),
    "an escape": (get(f"/%63as/{NO_BYTES}"), ABSENT),
    "a whole address": (get(f"http://x/cas/{NO_BYTES}"), ABSENT),
    "a hash in upper case": (get(f"/cas/{NO_BYTES.upper()}"), ABSENT),
    "GET of a pin": (get(f"/pin/{KEY}"), ABSENT),
    "a pin with a body": (put(f"/pin/{KEY}", b"\n"), BAD),
    "bytes that are no result": (put(f"/ac/{KEY}", b"\xff"), BAD),
    "a line end before the head": (b"\r\n" + get(f"/cas/{NO_BYTES}"), found(b"")),
    "a length of zeros": (head(ASKS, "Content-Length: 00"), found(b"")),
    "keep-alive": (head(ASKS, "Connection: keep-alive"), found(b"")),
}
