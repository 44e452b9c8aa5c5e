#!/usr/bin/env python3
"""Writes Bazel's execution log without what a plan doesn't need, one spawn a line: trim_log.py LOG OUTPUT_BASE.

OUTPUT_BASE is what `bazel info output_base` says; /bazel is written in its place."""

import io
import json

import bazel_log
from shared.command_line import Refused, fail, words_of


def main(log, base):
    try:
        with open(log, encoding="utf-8") as it:
            text = it.read().replace(base, "/bazel")
        for _, value in bazel_log.objects(io.StringIO(text)):
            print(json.dumps({key: it for key, it in value.items() if key in bazel_log.SPAWN_FIELDS}))
    except (OSError, UnicodeDecodeError, Refused) as fault:
        fail(2 if isinstance(fault, Refused) else 3, f'"{log}": {fault}')


if __name__ == "__main__":
    main(*words_of(__doc__, 2, 2))
