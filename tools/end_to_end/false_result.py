#!/usr/bin/env python3
"""Puts one false result into a cache, as who may put there can: for tools/end_to_end/bazel_attacks.sh.

    false_result.py HOST:PORT HONEST OTHER OUTPUT [PATH FILE]

HONEST and OTHER are folders of --disk_cache: of a build of the sources as they are, and of one of other sources. The action by
which the first made OUTPUT gets the result by which the other did. With PATH that result also names an output at PATH below
Bazel's execution root, with the contents of FILE.
"""

import os
import re

from shared.command_line import fail, words_of
from shared.messages import EMPTY, Digest, File, bytes_field, text_field
from shared.stores import ServerStore, read_file


def result_with(folder, output):
    """The hash of the action by which a build made an output, and the result."""
    for above, _, names in os.walk(os.path.join(folder, "ac")):
        for name in names:
            result = read_file(os.path.join(above, name))
            if text_field(1, output) in result:
                return name, result
    return fail(3, f'no result in "{folder}" names "{output}"')


def main():
    words = words_of(__doc__, 4, 6)
    address, honest, other, output = words[:4]
    action, _ = result_with(honest, output)
    _, result = result_with(other, output)
    names = {it.decode() for it in re.findall(rb"[0-9a-f]{64}", result)} - {EMPTY.hash}
    blobs = [read_file(os.path.join(other, "cas", it[:2], it)) for it in names]
    if len(words) == 6:
        path, file = words[4:]
        blobs.append(read_file(file))
        result += bytes_field(2, text_field(1, path) + File(Digest.of(blobs[-1])).fields_behind_name())
    cache = ServerStore(address, "")
    for blob in blobs:
        cache.put("cas", Digest.of(blob).hash, blob)
    cache.put("ac", action, result)
    print(action)


if __name__ == "__main__":
    main()
