"""The cone of a no, for graphviz: the step that fails, what made that which differs, and what follows up to the build's end."""

import os
import shutil
import subprocess

from plans import escaped
from read_plans import SOURCES, Node
from shared.command_line import NotAnswered

MOST_NODES = 20
FAILS, MAKES, FOLLOWS = "#f4b6b0", "#fbe3a6", "#e8eef7"


class Cone:
    """The nodes that are shown, the first the one that fails, and how many are left out."""

    def __init__(self, plans, failing, made):
        self.failing, self.readers, self.end = failing, plans.readers(), Node(len(plans.plans) - 1, None)
        self.paths = {}
        for it in made:
            self.paths.setdefault(it.maker, it.path)
        reached = self.reached()
        self.way = self.way_of(reached)
        ends = [self.end] if self.end in reached else []
        wanted = list(dict.fromkeys([failing, *ends, *list(self.paths)[:MOST_NODES // 2], *self.way, *reached, *self.paths]))
        room = MOST_NODES if len(wanted) <= MOST_NODES else MOST_NODES - 1
        self.nodes, self.left = wanted[:room], len(wanted) - len(wanted[:room])

    def reached(self):
        """By each that reads what fails, directly or not, the one that it reads, the nearest first."""
        found, waiting = {self.failing: None}, [self.failing]
        for node in waiting:
            for it in self.readers.get(node, []):
                if it not in found:
                    found[it] = node
                    waiting.append(it)
        return found

    def way_of(self, reached):
        """A shortest way from what fails to the end of the build."""
        way, at = [], self.end if self.end in reached else None
        while at is not None:
            way.append(at)
            at = reached[at]
        return way[::-1]

    def edges(self):
        """Who reads of whom, among the nodes that are shown, with what is told of it."""
        shown = set(self.nodes)
        for maker in self.nodes:
            failing = [self.failing] if maker in self.paths else []
            for reader in dict.fromkeys([*failing, *self.readers.get(maker, [])]):
                if reader in shown and reader != maker:
                    differs = maker in self.paths and reader == self.failing
                    yield maker, reader, escaped(self.paths[maker]) or "all sources" if differs else ""

    def cut(self):
        """The last node of the way that is shown before the end, and how many of it aren't; or nothing."""
        hidden = [it for it in self.way if it not in self.nodes]
        before = [it for it in self.way if it in self.nodes and it != self.end]
        return (before[-1], len(hidden)) if hidden else None


def name_of(node):
    """How a node is called in the text."""
    return "sources" if node == SOURCES else f"{node.stage}:{node.step or 'root'}"


def shown(node, stage):
    """How a node is called in the picture, in the stage with this name, or none."""
    if node == SOURCES:
        return "the sources"
    return (f"stage {stage}: " if stage else "") + (node.step or "root")


def dot_of(judged):
    """The text for graphviz."""
    verdict = judged.verdict
    cone = Cone(judged.plans, Node(judged.stage, verdict.step), judged.made)
    lines = ["digraph cone {", f'  label="{verdict.line}";', "  labelloc=t; rankdir=LR;",
             '  node [shape=box, style=filled, fontname="sans-serif"]; edge [fontname="sans-serif"];']
    for node in cone.nodes:
        fill = FAILS if node == cone.failing else MAKES if node in cone.paths else FOLLOWS
        lines.append(f'  "{name_of(node)}" [label="{shown(node, judged.name_of_stage(node))}", fillcolor="{fill}"];')
    lines += (f'  "{name_of(maker)}" -> "{name_of(reader)}" [label="{told}"];' for maker, reader, told in cone.edges())
    if cut := cone.cut():
        lines.append(f'  "{name_of(cut[0])}" -> "{name_of(cone.end)}" [style=dashed, label="{cut[1]} steps between"];')
    if cone.left:
        lines.append(f'  "more" [label="{cone.left} more", fillcolor="white", style="filled,dashed"];')
    return "\n".join([*lines, "}", ""])


def check_format(path):
    """Refuses to draw where graphviz isn't installed."""
    if is_picture(path) and not shutil.which("dot"):
        raise NotAnswered(f'"{path}": graphviz\'s dot isn\'t installed: install graphviz, or give a file .dot')


def is_picture(path):
    return os.path.splitext(path)[1] == ".svg"


def text_of(judged, path):
    """What is written at a path: the text for graphviz, or its picture."""
    text = dot_of(judged)
    if not is_picture(path):
        return text
    ran = subprocess.run(["dot", "-Tsvg"], input=text.encode(), capture_output=True, check=False)
    if ran.returncode != 0 or not ran.stdout:
        raise NotAnswered(f'"{path}": graphviz\'s dot ends with status {ran.returncode}: {ran.stderr.decode(errors="replace")}')
    return ran.stdout.decode()
