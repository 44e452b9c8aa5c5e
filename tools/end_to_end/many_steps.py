#!/usr/bin/env python3
"""Writes a Bazel workspace of COUNT genrules: many_steps.py FOLDER [COUNT]. Each rule reads a source file and the
outputs of up to three rules before it; every tenth one makes two files. Nothing is fetched.

many_steps.py --log FILE [COUNT [CHANGED]] writes a log as Bazel would of a build of COUNT spawns, each of which reads 30
files: tools that all spawns share, sources of its package, and outputs of spawns before it. The spawn of number CHANGED, from
1 on, has read something else than the spawn before it made."""

import hashlib
import json
import os
import sys

from shared.command_line import fail, numbers_of, words_of

PACKAGE = 100


def label(index):
    return f"//p{index // PACKAGE}:r{index}"


def rule(index):
    reads = sorted({it for it in (index - 1, index // 2, index // 3) if 0 <= it < index})
    outs = [f"r{index}.txt"] + ([f"r{index}.more"] if index % 10 == 0 else [])
    sources = ", ".join(f'"{it}"' for it in ["seed.in", *map(label, reads)])
    return f"""genrule(
    name = "r{index}",
    srcs = [{sources}],
    outs = [{", ".join(f'"{it}"' for it in outs)}],
    cmd = "for it in $(OUTS); do {{ echo {index}; cat $(SRCS) | cksum; }} > $$it; done",
    visibility = ["//visibility:public"],
)
"""


def file(path):
    return {"path": path, "digest": {"hash": hashlib.sha256(path.encode()).hexdigest(), "sizeBytes": str(len(path)),
                                     "hashFunctionName": "SHA-256"}}


def spawn(index):
    package = index // PACKAGE
    reads = [f"external/tools/lib/t{it}" for it in range(10)]
    reads += [f"p{package}/src/h{it}" for it in range(15)] + [f"p{package}/src/r{index}.c"]
    reads += [f"bazel-out/k8-fastbuild/bin/p{it // PACKAGE}/r{it}.o" for it in sorted({index - 1, index - 2, index // 2, index // 3})
              if 0 <= it < index]
    output = f"bazel-out/k8-fastbuild/bin/p{package}/r{index}.o"
    return {"commandArgs": ["/bin/make", output], "environmentVariables": [{"name": "PATH", "value": "/bin"}],
            "platform": {"properties": []}, "inputs": [file(it) for it in sorted(reads)], "listedOutputs": [output],
            "remotable": True, "cacheable": True, "timeoutMillis": "0", "progressMessage": f"Making {output}", "mnemonic": "Make",
            "actualOutputs": [file(output)], "runner": "linux-sandbox", "remoteCacheHit": False, "status": "", "exitCode": 0}


def write_log(path, count, changed=None):
    with open(path, "w", encoding="utf-8") as out:
        for index in range(count):
            value = spawn(index)
            if index == changed:
                read = next(it for it in value["inputs"] if it["path"].endswith(f"/r{index - 1}.o"))
                read["digest"] = file("another")["digest"]
            json.dump(value, out, indent=2)


def main(folder, count):
    os.makedirs(folder, exist_ok=True)
    with open(os.path.join(folder, "WORKSPACE"), "w") as out:
        out.write('workspace(name = "many")\n')
    for start in range(0, count, PACKAGE):
        package = os.path.join(folder, f"p{start // PACKAGE}")
        os.makedirs(package, exist_ok=True)
        with open(os.path.join(package, "seed.in"), "w") as out:
            out.write(f"seed {start}\n")
        with open(os.path.join(package, "BUILD"), "w") as out:
            out.write("\n".join(map(rule, range(start, min(start + PACKAGE, count)))))


if __name__ == "__main__":
    words = words_of(__doc__, 1, 4 if "--log" in sys.argv else 2, ["--log"])
    make = write_log if words[0] == "--log" else main
    place, *count = [it for it in words if it != "--log"] or fail(2, "--log has a file after it")
    try:
        make(place, *(numbers_of(count) or [1100]))
    except OSError as fault:
        fail(3, fault)
