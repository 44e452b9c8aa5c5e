"""Logs of small spawns, as Bazel writes them. (Nothing is imported of the repository: test_scripts.py puts this beside its Bazel.)"""

import hashlib
import json


def named(content):
    return {
        "hash": hashlib.sha256(content.encode()).hexdigest(),
        "sizeBytes": str(len(content.encode())),
        "hashFunctionName": "SHA-256",
    }


def as_bytes(text):
    """A text as Bazel 4.2.3 logs it: each byte as a character (`echo é | iconv -f latin1 -t utf-8`)."""
    return text.encode().decode("latin-1")


def files(contents):
    return [{"path": path, "digest": named(content)} for path, content in contents.items()]


def spawn(inputs, listed, made=None, **other):
    """A spawn as Bazel writes it; without `made` each listed output has its path as its content."""
    made = {path: path for path in listed} if made is None else made
    value = {
        "commandArgs": ["/bin/make", *listed],
        "environmentVariables": [],
        "platform": {"properties": []},
        "inputs": files(inputs),
        "listedOutputs": listed,
        "remotable": True,
        "cacheable": True,
        "timeoutMillis": "0",
        "progressMessage": f"Making {' '.join(listed)}",
        "mnemonic": "Make",
        "actualOutputs": files(made),
        "runner": "linux-sandbox",
        "remoteCacheHit": False,
        "status": "",
        "exitCode": 0,
        "remoteCacheable": True,
    }
    value.update(other)
    return value


def log(*spawns):
    return "".join(json.dumps(it, indent=2) for it in spawns)
