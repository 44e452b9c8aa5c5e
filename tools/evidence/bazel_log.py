"""Bazel's execution log, as `--execution_log_json_file` writes it: the spawns, each as it is read, or why there is no plan
of it. The rules are those of tools/evidence/README.md."""

import functools
import json
import re
import sys
from dataclasses import dataclass

from plans import folders_of, is_path, is_target, is_text, without_repeats
from shared.command_line import Refused
from shared.messages import Digest, File, Link, action_message, command_message

# The fields of a spawn and of what is in it that a plan says, those that say nothing of what was run or made, and no others.
SPAWN_FIELDS = {
    "commandArgs", "environmentVariables", "platform", "inputs", "listedOutputs", "actualOutputs", "cacheable",
    "timeoutMillis", "progressMessage", "targetLabel", "mnemonic", "status", "exitCode", "remoteCacheHit", "cacheHit", "runner",
}
UNSAID_SPAWN_FIELDS = {"remotable", "remoteCacheable", "walltime", "metrics", "digest"}
FILE_FIELDS = {"path", "digest", "symlinkTargetPath", "isTool"}
DIGEST_FIELDS = {"hash", "sizeBytes", "hashFunctionName"}
PLATFORM_FIELDS = {"properties"}
PAIR_FIELDS = {"name", "value"}
# Where Bazel has the inputs of all configurations, if it maps paths: none of the paths at which they are made.
MAPPED = "bazel-out/cfg/"
# What a log calls the runners that start a process on the machine of the build.
LOCAL_RUNNERS = {"linux-sandbox", "processwrapper-sandbox", "darwin-sandbox", "local", "worker"}


# The spawns.


@dataclass(eq=False)
class Spawn:
    """What the log says of one command that was run. Paths are those of the log, below Bazel's execution root."""

    number: int
    line: int
    title: str
    mnemonic: str
    arguments: list
    environment: list
    platform: list
    inputs: dict
    listed: list
    made: dict
    is_cacheable: bool
    is_from_cache: bool
    runner: str
    timeout: int
    exit_code: int
    # the first reason for which no plan may have it
    fault: str = None
    outputs: dict = None
    name: str = ""
    input: Digest = None
    action: Digest = None
    frame: Digest = None

    def place(self):
        return f'line {self.line}: spawn "{self.title}"'

    def command_message(self):
        return command_message(self.arguments, self.listed, self.environment)

    def action_message(self, command, input_root=None):
        """Its Action by the digests of its Command and its input; without an input root its frame."""
        return action_message(command, input_root, self.is_cacheable, self.platform)

    def first_output(self):
        """The least path of what it made, or of what it lists, or nothing."""
        return min(self.outputs, default=min(self.listed, default=""))

    def rank(self):
        """What tells it from each other spawn, in whichever order they ran."""
        return self.first_output(), self.action.hash

    def is_run_here(self):
        """Whether the log says that a process on the machine of the build made its outputs."""
        return self.runner in LOCAL_RUNNERS and not self.is_from_cache

    def refuse(self, reason):
        raise Refused(f"{self.place()}: {reason}")

    def refuse_in_plan(self, reason, *others):
        """Has it, and other spawns that this concerns, refused where one is a step of the plan."""
        for it in (self, *others):
            it.fault = it.fault or f"{self.place()}: {reason}"

    def check(self):
        """Refuses it as a step of a plan, where something was found that no plan may have."""
        if self.fault:
            raise Refused(self.fault)


AT_ONCE = 1 << 20


def objects(text):
    """The JSON objects of a text, which is read as it is needed, each with the line at which it begins."""
    decoder, blank = json.JSONDecoder(object_pairs_hook=without_repeats), re.compile(r"\s*")
    held, position, line, is_whole = "", 0, 1, False
    while True:
        start = blank.match(held, position).end()
        line += held.count("\n", position, start)
        position = start
        try:
            value, end = decoder.raw_decode(held, start)
            yield line, value
            line += held.count("\n", start, end)
            position = end
            continue
        except Refused as fault:
            raise Refused(f"line {line}: {fault}") from None
        except (ValueError, RecursionError) as fault:
            if is_whole and start < len(held):
                raise Refused(f"line {line}: no JSON object begins here that ends ({fault})") from None
        if is_whole:
            return
        # (what is held grows at least by half, so an object is tried a few times at most)
        more = text.read(max(AT_ONCE, (len(held) - start) // 2))
        held, position, is_whole = held[start:] + more, 0, not more


def read_log(text, is_latin1=False, passed_over=()):
    """The spawns of a log, which is read as it comes; some fields of which this program knows nothing may be passed over."""
    spawns, reader = [], Reader(Texts(is_latin1), set(passed_over))
    for line, value in objects(text):
        if not isinstance(value, dict):
            raise Refused(f"line {line}: this is no spawn, but another JSON value")
        title = title_of(value)
        try:
            spawns.append(reader.read(len(spawns), line, title, value))
        except (AttributeError, KeyError, TypeError, ValueError) as fault:
            what = f"{type(fault).__name__}: {fault}"
            raise Refused(f'line {line}: spawn "{title}": not as Bazel writes a spawn ({what})') from None
    reader.check_passed_over()
    return spawns


def title_of(value):
    """How a spawn is called in messages: what Bazel tells of it, and its target where that says none."""
    names = map(value.get, ("progressMessage", "targetLabel", "mnemonic"))
    told, target, mnemonic = (it if isinstance(it, str) else "" for it in names)
    title = f"{told} ({target})" if told and target not in told else told or target or mnemonic or "no name"
    return title.encode("unicode_escape").decode()


class Texts:
    """The texts of a log. Bazel 4.2.3 logs each byte of a text beyond ASCII as a character, so one whose characters are all at
    most U+00FF may be such bytes. With `is_latin1` each text is taken for its bytes, which are UTF-8; else it is a fault."""

    def __init__(self, is_latin1):
        self.is_latin1 = is_latin1

    def read(self, text, what):
        """A text as it is meant, and the fault that it has, or none."""
        if sys.intern(text).isascii():
            return sys.intern(text), None
        shown = f"{what} {text!r}"
        try:
            meant = text.encode("latin-1").decode()
        except UnicodeEncodeError:
            fault = f"{shown} has characters beyond U+00FF, so --latin1-names isn't for it"
            return text, fault if self.is_latin1 else None
        except UnicodeDecodeError:
            return text, f"{shown} has characters that may be bytes, as Bazel 4 logs them, and as bytes is no UTF-8"
        if self.is_latin1:
            return meant, None
        return text, f"{shown} may have each byte logged as a character, as by Bazel 4, which --latin1-names takes for {meant!r}"


class Reader:
    """Reads the spawns of one log. Many of them read one file, so each file is checked once and stands once."""

    def __init__(self, texts, passed_over):
        self.texts, self.passed_over, self.unseen = texts, passed_over, set(passed_over)
        self.seen, self.files = {}, {}
        known = min(passed_over & (SPAWN_FIELDS | UNSAID_SPAWN_FIELDS), default=None)
        if known is not None:
            raise Refused(f'the field "{known}" isn\'t passed over: this program knows it')

    def check_passed_over(self):
        if self.unseen:
            raise Refused(f'no spawn has the field "{min(self.unseen)}", which is to be passed over')

    def read(self, number, line, title, value):
        spawn = Spawn(
            number=number,
            line=line,
            title=title,
            mnemonic=sys.intern(value.get("mnemonic", "")),
            arguments=of_type(list, value["commandArgs"]),
            environment=read_pairs(value.get("environmentVariables", [])),
            platform=read_pairs(with_fields(PLATFORM_FIELDS, value.get("platform", {})).get("properties", [])),
            inputs={},
            listed=of_type(list, value.get("listedOutputs", [])),
            made={},
            is_cacheable=of_type(bool, value.get("cacheable", False)),
            is_from_cache=True in [of_type(bool, value.get(it, False)) for it in ("remoteCacheHit", "cacheHit")],
            runner=of_type(str, value.get("runner", "")),
            timeout=whole(value.get("timeoutMillis", 0)),
            exit_code=whole(value.get("exitCode", 0)),
        )
        self.read_texts(spawn)
        self.unseen.difference_update(value)
        check_fields(spawn, value, self.passed_over)
        check_command(spawn)
        self.read_files(spawn, "input", of_type(list, value.get("inputs", [])), spawn.inputs)
        self.read_files(spawn, "output", of_type(list, value.get("actualOutputs", [])), spawn.made)
        return spawn

    def read_texts(self, spawn):
        """Puts the meant texts of its command and its platform in the place of those that are logged."""
        def meant(texts, what):
            read = [self.texts.read(it, what) for it in texts]
            for fault in (it for _, it in read if it):
                spawn.refuse_in_plan(fault)
            return [it for it, _ in read]

        def meant_pairs(pairs, what):
            return sorted(tuple(meant(pair, what)) for pair in pairs)

        spawn.arguments = meant(spawn.arguments, "its argument")
        spawn.environment = meant_pairs(spawn.environment, "its variable")
        spawn.platform = meant_pairs(spawn.platform, "its platform's property")
        spawn.listed = sorted(set(meant(spawn.listed, "its listed output")))

    def read_files(self, spawn, kind, values, into):
        """Puts the inputs or the outputs of a spawn into a dictionary, by their paths."""
        for value in values:
            if not value.keys() <= FILE_FIELDS:
                unknown = min(value.keys() - FILE_FIELDS)
                spawn.refuse(f'its {kind} "{value["path"]}" has a field "{unknown}", of which this program knows nothing')
            digest = with_fields(DIGEST_FIELDS, value.get("digest", {}))
            where = value["path"], of_type(str, value.get("symlinkTargetPath", ""))
            key = *where, digest.get("hash", ""), whole(digest.get("sizeBytes", 0)), digest.get("hashFunctionName", "")
            if key not in self.seen:
                self.add(spawn, kind, key)
            path, entry, fault = self.seen[key]
            if fault:
                spawn.refuse_in_plan(f"its {kind}{fault}")
            if into.setdefault(path, entry) != entry:
                spawn.refuse(f'it has the {kind} "{path}" twice, and not the same')

    def add(self, spawn, kind, key):
        """Checks a file once for all spawns that have it."""
        (path, wrong_path), (target, wrong_target) = (self.texts.read(it, "") for it in key[:2])
        entry = read_file(spawn, kind, path, target, *key[2:])
        self.seen[key] = path, self.files.setdefault(entry, entry), wrong_path or (wrong_target and f"'s target{wrong_target}")


def check_fields(spawn, value, passed_over):
    """Refuses what the fields of a spawn have besides its command and its files."""
    unknown = sorted(set(value) - SPAWN_FIELDS - UNSAID_SPAWN_FIELDS - passed_over)
    if unknown:
        spawn.refuse_in_plan(f'it has a field "{unknown[0]}", of which this program knows nothing (see --pass-over)')
    for key in ("progressMessage", "targetLabel"):
        of_type(str, value.get(key, ""))
    if not -(2**31) <= spawn.exit_code < 2**31:
        spawn.refuse(f"its exit code {spawn.exit_code} has more than 32 bits")
    status = of_type(str, value.get("status", ""))
    if status not in ("", "SUCCESS") and spawn.exit_code == 0:
        spawn.refuse(f'its status is "{status}", and its exit code 0')


def of_type(kind, value):
    # (a bool, which Python takes as a number, is none)
    if type(value) is not kind:
        raise TypeError(f"{type(value).__name__} in place of {kind.__name__}")
    return value


def with_fields(fields, value):
    """An object that has none but these fields."""
    if not of_type(dict, value).keys() <= fields:
        raise ValueError(f'an object with "{min(value.keys() - fields)}", of which this program knows nothing')
    return value


@functools.lru_cache(maxsize=65536, typed=True)
def whole(value):
    """A whole number, which JSON has as a number or, where it has 64 bits, as a text."""
    if isinstance(value, str) and re.fullmatch("-?[0-9]{1,19}", value):
        return int(value)
    return of_type(int, value)


def read_pairs(values):
    pairs = (with_fields(PAIR_FIELDS, it) for it in of_type(list, values))
    return [(it.get("name", ""), it.get("value", "")) for it in pairs]


def check_command(spawn):
    """Refuses what no Command and no Platform has (40, 34, 35 and 33 of docs/FORMATS.md)."""
    if not spawn.arguments or not spawn.arguments[0]:
        spawn.refuse("it has no program to run")
    for argument in spawn.arguments:
        if not is_text(argument):
            spawn.refuse(f"its argument {argument!r} has a NUL, or is no UTF-8")
    for name, value in spawn.environment:
        if not name or "=" in name or not is_text(name + value):
            spawn.refuse(f"its variable {name!r} is without a name, or has a NUL, a = in its name, or no UTF-8")
    for (name, _), (other, _) in zip(spawn.environment, spawn.environment[1:]):
        if name == other:
            spawn.refuse(f'its variable "{name}" is set twice')
    for pair, other in zip(spawn.platform, spawn.platform[1:]):
        if pair == other:
            spawn.refuse(f'its platform has the property "{pair[0]}" twice with the same value')
    for name, value in spawn.platform:
        if not is_text(name + value):
            spawn.refuse(f"its platform's property {name!r} has a NUL, or is no UTF-8")
    listed = set(spawn.listed)
    for path in spawn.listed:
        if not is_path(path):
            spawn.refuse(f"it lists the output {path!r}, which is no path below the execution root")
        for folder in folders_of(path):
            if folder in listed:
                spawn.refuse(f'it lists the output "{path}", which lies under "{folder}", another one')


def read_file(spawn, kind, path, target, hash_text, size, function):
    if not is_path(path):
        spawn.refuse(f"it has the {kind} {path!r}, which is no path below the execution root")
    if path.startswith(MAPPED):
        spawn.refuse(f'its {kind} "{path}" stands where Bazel maps paths to: build without --experimental_output_paths')
    if target and hash_text:
        spawn.refuse(f'its {kind} "{path}" has a digest, and a target as a link')
    if target:
        if not is_target(target):
            spawn.refuse(f'its {kind} "{path}" is a link whose target has a NUL, no UTF-8, or over 4,096 bytes')
        return Link(target)
    if not re.fullmatch("[0-9a-f]{64}", hash_text) or not 0 <= size < 2**63 or function not in ("SHA-256", "SHA256"):
        spawn.refuse(f'its {kind} "{path}" has no digest of SHA-256')
    return File(Digest(hash_text, size))
