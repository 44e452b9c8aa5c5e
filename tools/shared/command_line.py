"""How every tool reads its words, what it prints, and how it ends. `--help` prints the tool's own text; words that are wrong come
to one line of an error and status 2."""

import argparse
import contextlib
import os
import shutil
import signal
import sys


class Refused(Exception):
    """Why a tool does nothing with what it was given: where, and what is wrong there."""


class NotAnswered(Exception):
    """What a server or the program did in place of an answer."""


# The words of a tool.


def words_of(help_text, least=0, most=None, options=()):
    """The words of a tool that has no options but these, none of which has a value. It ends here with the help, where that is
    asked for, and with a line of an error where another option is among them, or the words are too few or too many."""
    words = sys.argv[1:]
    if any(it in ("-h", "--help") for it in words):
        # (who reads only the head of it ends this quietly)
        signal.signal(signal.SIGPIPE, signal.SIG_DFL)
        print(help_text.strip(), flush=True)
        sys.exit(0)
    unknown = next((it for it in words if it.startswith("-") and it not in options), None)
    if unknown:
        fail(2, f"there is no option {unknown}; see --help")
    if len(words) < least or most is not None and len(words) > most:
        taken = f"{least} or more" if most is None else f"{least} to {most}" if least < most else most
        fail(2, f"words given: {len(words)}, taken: {taken}; see --help")
    return words


class Parser(argparse.ArgumentParser):
    """Options of a tool, whose help has this text, and which tells wrong words in one line of an error."""

    def __init__(self, prog, text):
        first, rest = text.split("\n\n", 1)
        super().__init__(prog=prog, description=first, epilog=rest, formatter_class=argparse.RawDescriptionHelpFormatter)

    def error(self, message):
        complain(f"error: {on_one_line(message)}; see --help")
        sys.exit(2)


class Once(argparse.Action):
    """An option that is refused where it is given twice: one of its values would be forgotten."""

    is_given = False

    def __call__(self, parser, namespace, value, option_string=None):
        if self.is_given:
            parser.error(f"{option_string} is given twice")
        self.is_given = True
        setattr(namespace, self.dest, value)


class InPlaceOf(Once):
    """An option that stands in the place of a word: exactly one of them is given."""

    def __init__(self, *words, word, **more):
        super().__init__(*words, **more)
        self.word = word

    def __call__(self, parser, namespace, value, option_string=None):
        def refuse(_):
            raise argparse.ArgumentTypeError(f"{option_string} stands in its place")

        if getattr(namespace, self.word.dest) is not None:
            parser.error(f"{option_string} stands in the place of {self.word.metavar}")
        self.word.required, self.word.type = False, refuse
        super().__call__(parser, namespace, value, option_string)


def place_of(text):
    """A path among the words. An empty one, as of a variable that isn't set, is refused."""
    if not text:
        raise argparse.ArgumentTypeError("'' is no path")
    return text


def number_to(most):
    """Reads a whole number from 1 to this one."""
    def read(text):
        if not text.isdecimal() or not 1 <= int(text) <= most:
            raise argparse.ArgumentTypeError(f"{text!r} is no number from 1 to {most}")
        return int(text)

    return read


def say(*lines):
    """Prints lines at once. What standard output doesn't take is forgotten, else it would be written again at the end."""
    if sys.stdout is None:
        raise OSError("standard output is closed")
    try:
        print(*lines, sep="\n", flush=True)
    except OSError:
        with contextlib.suppress(OSError, ValueError):
            os.dup2(os.open(os.devnull, os.O_WRONLY), sys.stdout.fileno())
        raise


def complain(line):
    """Prints a line on standard error, where there is one and that takes it: the status says the same."""
    if line and sys.stderr:
        with contextlib.suppress(OSError):
            print(line, file=sys.stderr, flush=True)


def status_of(make):
    """Prints the lines that `make` comes to, or that of an error. The status is what `make` has before its lines, 2 where it
    refuses, and 3 where a file, a server or memory fails, or it is interrupted."""
    try:
        status, *lines = make()
        say(*lines)
        return status
    except Refused as fault:
        status, why = 2, fault
    except (NotAnswered, OSError, UnicodeError, MemoryError, KeyboardInterrupt) as fault:
        status, why = 3, str(fault) or type(fault).__name__
    complain(f"error: {on_one_line(str(why))}")
    return status


def on_one_line(text):
    """A text in which each character that isn't printable stands as Python writes it, as \\n."""
    return "".join(it if it.isprintable() else repr(it)[1:-1] for it in text)


def fail(status, why):
    """Ends the tool with one line of an error."""
    complain(f"error: {on_one_line(str(why))}")
    sys.exit(status)


# What a word names.


def program_at(path):
    """The place of the program, where it is one."""
    if not os.path.isfile(path) or not os.access(path, os.X_OK):
        fail(3, f'"{path}" is no program')
    return os.path.realpath(path)


def need(*programs):
    """Ends the tool where one of these isn't installed."""
    missing = next((it for it in programs if not shutil.which(it)), None)
    if missing:
        fail(3, f"{missing} isn't installed")


def numbers_of(words, least=1):
    """These words as whole numbers."""
    wrong = next((it for it in words if not it.isdecimal() or int(it) < least), None)
    if wrong is not None:
        fail(2, f"{wrong!r} is no whole number from {least} on")
    return [int(it) for it in words]
