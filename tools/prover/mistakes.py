"""Mistakes in a crate's code, as crates/NAME/mistakes/*.edit has them, and the functions that each turns.

A mistake begins with a line '# NAME'. Then come lines 'file: PATH', below the crate, and pairs of lines 'old: TEXT' and
'new: TEXT': the text that goes, which stands once in that file, and the text that comes. A line '# refused in PATH' below the
name tells in which function the prover refuses it, where that isn't the one whose text is turned. A line '# named' below the
name marks a wrong body on which the product rests: tools/prover/named_mistakes.txt says which.
"""

import glob
import os
import re
from dataclasses import dataclass, field

from shared.crates import TOP

FOLDERS = ("mistakes", "must-fail")
NAMED = "# named"
CYCLE = re.compile(r"#\[cycle\((\w+)\)\]\s*(?:pub(?:\(\w+\))? )?fn (\w+)")


@dataclass(eq=False)
class Mistake:
    crate: str
    name: str
    pairs: list = field(default_factory=list)
    refused_in: list = field(default_factory=list)
    functions: set = field(default_factory=set)
    cycles: set = field(default_factory=set)
    is_named: bool = False
    stands_alone: bool = False

    def __str__(self):
        return f"{self.crate}/{self.name}"


class CannotApply(Exception):
    """Why a mistake can't be put into a text."""


def mistakes_of(crate, top=TOP, folders=FOLDERS):
    """The mistakes of a crate, in the order of its files."""
    found = []
    for folder in folders:
        for path in sorted(glob.glob(f"{top}/crates/{crate}/{folder}/*.edit")):
            with open(path, encoding="utf-8") as it:
                found += read(crate, os.path.basename(path).removesuffix(".edit"), it.read())
    return found


def read(crate, title, text):
    """The mistakes of a file; what stands before the first name has the file's title."""
    found, file, gone = [Mistake(crate, title)], None, None
    for line in text.split("\n"):
        if line == NAMED:
            found[-1].is_named = True
        elif re.fullmatch(r"# \S+", line):
            found.append(Mistake(crate, line[2:]))
            file = None
        elif line.startswith("# refused in "):
            found[-1].refused_in += line[len("# refused in "):].split()
        elif line.startswith("file: "):
            file = line[len("file: "):].strip()
        elif line.startswith("old: "):
            gone = line[len("old: "):]
        elif line.startswith("new:"):
            found[-1].pairs.append((file, gone, line[len("new:"):].removeprefix(" ")))
    return [it for it in found if it.pairs]


def apply(mistake, texts):
    """The files' texts with a mistake in them, of those that it turns; `texts` gives a file's text."""
    turned = {}
    for file, gone, comes in mistake.pairs:
        if not file or not gone:
            raise CannotApply("a line 'new:' stands before any 'file:' or 'old:'")
        text = turned[file] if file in turned else texts(file)
        if text.count(gone) != 1:
            raise CannotApply(f"{gone.strip()!r} stands in {file} {text.count(gone)} times, and not once")
        turned[file] = text.replace(gone, comes)
    return turned


def functions_turned(turned, texts, homes):
    """The functions whose text a mistake changes, or else those that it adds; and whether it changes no function, but a type."""
    changed, added = set(), set()
    for file, text in turned.items():
        before, after = functions_of(file, texts(file), homes), functions_of(file, text, homes)
        changed |= {it for it in after if it in before and before[it] != after[it]}
        added |= {it for it in after if it not in before}
    return changed or added, not changed


def cycles_turned(functions, turned, texts):
    """The cycles of calls that these functions of the turned files are in: the functions of a cycle have one proof."""
    names = {it.rpartition("::")[2] for it in functions}
    return {cycle for file in turned for cycle, name in CYCLE.findall(texts(file)) if name in names}


def turns_more_than_bodies(turned, texts):
    """Whether a mistake changes what other functions read of a file: a head or a contract, a type, a constant or a definition."""
    return any(outside_bodies(texts(file)) != outside_bodies(text) for file, text in turned.items())


# The functions of a file of code.

WORD = re.compile(
    r"(?P<blank>//[^\n]*|/\*.*?\*/|\s+)"
    r"|(?P<text>b?r(?P<marks>#*)\".*?\"(?P=marks)|b?\"(?:\\.|[^\"\\])*\"|b?'(?:\\(?:x..|u\{[^}]*\}|.)|[^\\'])')"
    r"|(?P<word>'?\w+)|(?P<mark>.)",
    re.DOTALL,
)


def words_of(text):
    """The words, marks and literals of a text, each with its place."""
    return [(it.group(), it.start()) for it in WORD.finditer(text) if it.lastgroup != "blank" and not it.group("blank")]


def module_of(file):
    return [it for it in re.sub(r"^src/|\.rt$", "", file).split("/") if it not in ("lib", "main", "mod")]


def homes_of(folder):
    """The modules of a crate that declare a type of a name."""
    homes = {}
    for path in glob.glob(f"{folder}/src/**/*.rt", recursive=True):
        with open(path, encoding="utf-8") as it:
            names = re.findall(r"(?m)^\s*(?:pub(?:\([^)]*\))? )?(?:struct|enum) (\w+)", it.read())
        for name in names:
            homes.setdefault(name, []).append(module_of(os.path.relpath(path, folder)))
    return homes


def functions_of(file, text, homes):
    """The texts of the functions of a file of code, by their path below the crate: a type's own are told in the module that
    declares it, and what a trait's name has between <> is kept."""
    module, found = module_of(file), Functions()
    scan(words_of(text), 0, module, found, text)
    told = {}
    for path, texts in found.items():
        names = path.split("::")
        places = homes.get(names[-2], []) if len(names) == len(module) + 2 else []
        told["::".join(names if module in places or len(places) != 1 else [*places[0], *names[-2:]])] = texts
    return told


class Functions(dict):
    """The texts of the functions of a file, by their paths; and where in the file the bodies stand that no constant reads."""

    def __init__(self):
        super().__init__()
        self.bodies = []


def outside_bodies(text):
    """The words of a file of code that stand outside its functions' bodies."""
    found, left, end = Functions(), [], 0
    scan(words_of(text), 0, [], found, text)
    for start, after in found.bodies:
        left.append(text[end:start])
        end = after
    return [word for word, _ in words_of("{}".join([*left, text[end:]]))]


def assumable(folder, homes):
    """The functions of a crate that a check can take by their contracts, each with the file of code that it stands in: those
    with a body, but for the methods of a trait and those that call themselves or each other."""
    found = {}
    for path in glob.glob(f"{folder}/src/**/*.rt", recursive=True):
        file = os.path.relpath(path, folder)
        with open(path, encoding="utf-8") as it:
            text = it.read()
        traits = set(re.findall(r"\btrait (\w+)", text))
        in_cycles = {name for _, name in CYCLE.findall(text)}
        for function, texts in functions_of(file, text, homes).items():
            *above, name = function.split("::")
            type_name = above[-1].partition("+")[0] if above else ""
            is_method = type_name[:1].isupper()
            own = rf"(?:Self::|self\.|\b{type_name}(?:::<[^(]*>)?::)" if is_method else r"(?<![\w.:])(?:self::)?"
            calls_itself = re.search(rf"{own}{name}(?:::<[^(]*>)?\(", texts[0].partition(f"fn {name}")[2])
            cycle = os.path.join(folder, "proofs", *above, f"+{name}")
            if (len(texts) == 1 and texts[0].endswith("}") and name != "main" and not calls_itself
                    and name not in in_cycles and not traits.intersection(above) and not os.path.isdir(cycle)):
                found[function] = file
    return found


def spellings(path):
    """The paths as which a check may print a function: a trait's arguments are told, unless they aren't needed to part impls."""
    return re.sub(r"[<>]", "", path), re.sub(r"<\w*>", "", path)


def scan(words, at, path, found, text):
    """Reads items up to the brace that ends them; the place after it."""
    begin = at
    while at < len(words):
        word = words[at][0]
        if word == "}":
            return at + 1
        if word in (";", "#") or word == "]":
            begin = at + 1
        if word == "fn":
            at, begin = read_function(words, at, begin, path, found, text)
        elif word in ("impl", "mod", "trait") and at + 1 < len(words):
            head, at = [], at + 1
            while at < len(words) and words[at][0] not in ("{", ";"):
                head.append(words[at][0])
                at += 1
            if at < len(words) and words[at][0] == "{":
                at = scan(words, at + 1, [*path, name_of(word, head)], found, text)
            begin = at
        elif word == "{":
            at = skip(words, at)
            begin = at
        else:
            at += 1
    return at


def read_function(words, at, begin, path, found, text):
    """Keeps the text of a function, its contract and its body, or its contract alone; the place after it, twice."""
    name, start, depth = words[at + 1][0], words[begin][1], 0
    is_const = any(word == "const" for word, _ in words[begin:at])
    at += 2
    while at < len(words):
        word = words[at][0]
        depth += (word in "([") - (word in ")]")
        if word == ";" and not depth:
            at += 1
            break
        if word == "{":
            is_clause = words[at - 1][0] in CLAUSES or words[at - 1][0] == "*" and words[at - 2][0] in CLAUSES
            brace, at = words[at][1], skip(words, at)
            if not is_clause and (at >= len(words) or words[at][0] not in ("{", *CLAUSES)):
                found.bodies += [] if is_const else [(brace, words[at - 1][1] + 1)]
                break
        else:
            at += 1
    found.setdefault("::".join([*path, name]), []).append(text[start:words[at - 1][1] + 1])
    return at, at


# (a `ghost` clause stands first, so after a brace `ghost` begins another item)
CLAUSES = ("requires", "ensures")


def skip(words, at):
    """The place after the brace that closes the one here."""
    depth = 0
    while at < len(words):
        depth += (words[at][0] == "{") - (words[at][0] == "}")
        at += 1
        if not depth:
            break
    return at


def name_of(kind, head):
    """The name of a module, a trait or an impl, as a check prints it: of an impl the type's name and then the trait's, each with
    its arguments but for the impl's own parameters; of a type's own functions its name, with + and each argument where one of
    them is no parameter."""
    if kind in ("mod", "trait"):
        return head[0]
    parameters = set()
    if head and head[0] == "<":
        depth, at = 0, 0
        while at < len(head):
            depth += (head[at] == "<") - (head[at] == ">" and head[at - 1] != "-")
            if depth == 1 and head[at] in ("<", ","):
                parameters.add(head[at + 1])
            at += 1
            if not depth:
                break
        head = head[at:]
    if "where" in head:
        head = head[: head.index("where")]
    depth, split = 0, None
    for at, word in enumerate(head):
        depth += (word == "<") - (word == ">")
        if word == "for" and not depth:
            split = at
    sides = [head[split + 1:], head[:split]] if split is not None else [head]
    names = [tuple_name(it, parameters) or slice_name(it) or last_name(it) for it in sides]
    if len(sides) == 1:
        own = own_arguments(sides[0], parameters)
        return "+".join([*names, *arguments(sides[0], parameters)]) if own else names[0]
    # (of a tuple and a slice the name has its types already)
    parts = [own_arguments(it, parameters) if name == last_name(it) else [] for it, name in zip(sides, names)]
    return "".join(f"{name}<{''.join(args)}>" if args else name for name, args in zip(names, parts))


def tuple_name(words, parameters):
    """The name of a tuple's impl: TupleN and the last name of each type in it, but for the impl's own parameters; or nothing."""
    if words[:1] != ["("]:
        return ""
    depth, parts = 0, [[]]
    for word in words[1:-1]:
        depth += (word in "<([") - (word in ">)]")
        if word == "," and not depth:
            parts.append([])
        else:
            parts[-1].append(word)
    names = [last_name(it) for it in parts if it]
    return f"Tuple{len(names)}{''.join(it for it in names if it not in parameters)}"


def slice_name(words):
    """The name of the impl of a reference to a slice: RefSlice and the last name of its elements' type; or nothing."""
    named = [it for it in words if not it.startswith("'")]
    element = last_name(named[2:-1])
    return f"RefSlice{element[:1].upper()}{element[1:]}" if named[:2] == ["&", "["] else ""


def last_name(words):
    """The last name of a path, without what stands between <>."""
    depth, name = 0, ""
    for word in words:
        depth += (word == "<") - (word == ">")
        if not depth and re.fullmatch(r"\w+", word) and word not in ("dyn", "mut", "const"):
            name = word
    # (the kit's io::Error has a name of its own there)
    return "IoError" if name == "Error" and "io" in words else name


def arguments(words, parameters):
    """The last name of each argument between the outer <> of a path, and of its own arguments but for an impl's parameters."""
    depth, parts = 0, [[]]
    for word in words:
        depth += (word == "<") - (word == ">")
        if word == "," and depth == 1:
            parts.append([])
        elif depth > 1 or depth == 1 and word != "<":
            parts[-1].append(word)
    return ["".join([last_name(it), *own_arguments(it, parameters)]) for it in parts if last_name(it)]


def own_arguments(words, parameters):
    return [it for it in arguments(words, parameters) if it not in parameters] if "<" in words else []
