"""A verdict in ten lines of Markdown, for the page of a CI."""

import os
import re

from plans import escaped
from shared import stores
from shared.command_line import NotAnswered
from shared.crates import TOP

PAGE = "docs/VERIFY_BAZEL.md"
# How many files, steps or paths a line names.
MOST_NAMED = 5
SHIP = "Ship exactly what was judged, and keep the evidence"
CACHED = "Don't ship on this alone: it stands on a cache's word for {} steps. Record it with `--refuse-cached`"


def advice_of(cause):
    """What a cause means for a release, and what to do, by the table of VERIFY_BAZEL."""
    text = stores.read_file(os.path.join(TOP, PAGE)).decode()
    for means, *cells in (row.split(" | ") for row in re.findall(r"^\| (.+) \|$", text, re.M)):
        if len(cells) == 2 and re.search(f"`{cause}[` ]", means):
            return [re.sub(r"\[([^]]*)\]\([^)]*\)", r"\1", it) for it in cells]
    raise NotAnswered(f'"{PAGE}" of this repository has no row of {cause}')


def some(names):
    """The first of these names, and how many there are beside them."""
    told = ", ".join(f"`{it}`" for it in names[:MOST_NAMED])
    return told + (f" and {len(names) - MOST_NAMED} others" if len(names) > MOST_NAMED else "") or "none"


def maker_of(made, judged):
    """Who made something, in words."""
    stage = judged.name_of_stage(made.maker)
    if not made.maker.step:
        return f"the sources have it as `{escaped(made.path) or '.'}`"
    return f"step `{made.maker.step}`{f' of stage {stage}' if stage else ''} made it as `{escaped(made.path)}`"


def lines_of(judged):
    """The lines of a verdict: what was decided, on what, and what to do now."""
    verdict = judged.verdict
    ship = CACHED.format(len(judged.from_cache)) if judged.from_cache else SHIP
    means, to_do = ("", ship) if verdict.is_yes else advice_of(verdict.cause)
    whole = f", in {len(judged.stages)} stages" if judged.are_stages() else ""
    return [
        f"### buildcache: {'yes' if verdict.is_yes else 'no'}",
        "",
        f"`{verdict.line}`",
        "",
        f"- **Files**: {files_told(judged)}",
        f"- **Made by**: {makers_told(judged)}",
        f"- **Build**: {judged.steps} steps{whole}, of the sources `{judged.sources}`; {taken_told(judged)}",
        f"- **Verifier**: buildcache {judged.program.version}, `{judged.program.sha256}`",
        f"- **Means**: {means or 'every build of the plan on these sources ends in exactly the claim (docs/GUARANTEES.md)'}",
        f"- **Now**: {to_do}",
    ]


def files_told(judged):
    """The files on which the verdict is, as far as they are known."""
    shipped, _ = judged.shipped
    if shipped is None:
        return "not told, as --artifact isn't given and artifact.sums isn't there, or can't be held against the claim"
    return f"{len(shipped)}: {some([escaped(it) for it in sorted(shipped)])}"


def makers_told(judged):
    """Of a yes the steps that made the files; of a no who made what the cause names, or the files that differ."""
    if judged.verdict.is_yes:
        return some(list(dict.fromkeys(it.maker.step or "the sources" for it in judged.made)))
    if not judged.differing:
        return "; ".join(maker_of(it, judged) for it in judged.made[:MOST_NAMED]) or "the cause names no path of the plan"
    told = [f"`{escaped(path)}` differs, {maker_of(made[0], judged) if made else 'and no step made it'}"
            for path, made in list(judged.differing.items())[:MOST_NAMED]]
    more = len(judged.differing) - len(told)
    return "; ".join(told) + (f"; {more} others differ" if more else "")


def taken_told(judged):
    """What the yes stands on besides, as far as the evidence says."""
    taken = "taken files aren't listed" if judged.taken is None else f"taken {len(judged.taken)}: {some(judged.taken)}"
    return taken + ("" if judged.from_cache is None else f"; from a cache {len(judged.from_cache)}: {some(judged.from_cache)}")


def text_of(judged):
    return "".join(f"{it}\n" for it in lines_of(judged))
