"""The calls of the library for C: as crates/flcol_c and c/*.c define them, and as include/flcol.h declares them.

How Rattle passes parameters to C: an allocator is nothing, a slice a pointer and its length, a slice of blocks a pointer and
how many blocks there are, a borrow a pointer, and a number itself.
"""
import re
from typing import NamedTuple

import sources
from sources import ROOT, files_of

HEADER = "include/flcol.h"
#: What C calls the types of exports.
TYPES = {f"{sign}{bits}": f"{'u' * (sign == 'u')}int{bits}_t" for sign in "ui" for bits in (8, 16, 32, 64)} | {
    "usize": "size_t",
    "ArrayHandle": "flcol_array",
    "ItemRange": "flcol_range",
    "Integer": "flcol_integer",
    "ChunkRecord": "flcol_chunk",
}
#: Parameters that are text to C, and those whose name is a word of C++.
TEXTS = ("scheme", "text")
RENAMED = {"operator": "op"}

EXPORT = re.compile(r"#\[unsafe\(no_mangle\)\](?:\s*#\[[^\n]*\])*\s*pub extern\s+fn (\w+)")
SAID = re.compile(r"(?P<borrow>&(?:mut )?)?(?:\[\[(?P<block>\w+); \w+\]\]|\[(?P<slice>\w+)\]|(?P<one>\w+))")
COMMENT = re.compile(r"(?s)/\*.*?\*/|//[^\n]*")
DIRECTIVE = re.compile(r"(?m)^[ \t]*#(?:\\\n|[^\n])*")
LENGTH = re.compile(r"(?:\w+_)?len|count|room")
PROTOTYPE = r"([\w\s]+?[\s*]+)(flcol_\w+)\(([^()]*)\)\s*"


class Parameter(NamedTuple):
    """A parameter: its name, the type of what is passed or pointed to as C has it, "const" or "mut" for a pointer, and the
    name of the number that follows a pointer to many."""

    name: str
    type: str
    pointer: str = ""
    length: str = ""


class Call(NamedTuple):
    """A call: its name, what it answers and what it takes."""

    name: str
    returned: str
    parameters: tuple[Parameter, ...]


class Word(NamedTuple):
    """A parameter as a prototype has it: its type, and a pattern of its names."""

    type: str
    name: str


def read(path):
    """The text of a file, as it is changed where it is."""
    return sources.CHANGED.get(ROOT / path) or (ROOT / path).read_text(encoding="utf-8")


def parameter(call, name, said):
    """A parameter of an export."""
    match = SAID.fullmatch(said)
    one = match and (match["block"] or match["slice"] or match["one"])
    if one not in TYPES or (not match["borrow"] and not match["one"]):
        raise SyntaxError(f"{call}: C has no {said}")
    is_text = match["slice"] == "u8" and name in TEXTS
    length = f"{name}_blocks" if match["block"] else f"{name}_len" if match["slice"] else ""
    pointer = {None: "", "&": "const", "&mut ": "mut"}[match["borrow"]]
    return Parameter(name, "char" if is_text else TYPES[one], pointer, length)


def exports():
    """The calls of crates/flcol_c, in their order."""
    for file in files_of("flcol_c"):
        names = {*EXPORT.findall(file.text)}
        for function in file.functions:
            if function.name in names:
                parameters = [parameter(function.name, *it) for it in function.parameters if it[1] != "Global"]
                yield Call(function.name, TYPES[function.returned] if function.returned else "void", (*parameters,))


def plain(text):
    """The text of a file of C without comments and directives."""
    return DIRECTIVE.sub("", COMMENT.sub("", text))


def typed(said):
    """A type as it is written here: `const char *`."""
    return " ".join(said.replace("*", " * ").split())


def words_of(said):
    """The types and names of a prototype's parameters."""
    parts = [re.fullmatch(r"(.*?)(\w+)", " ".join(it.split())) for it in said.split(",")]
    return [] if said.strip() == "void" else [Word(typed(it[1]), it[2]) for it in parts]


def defined_in_c():
    """The calls that the files of c/ define."""
    for path in sorted((ROOT / "c").glob("*.c")):
        for returned, name, said in re.findall(PROTOTYPE + r"\{", plain(read(path.relative_to(ROOT)))):
            if "static" not in returned.split():
                yield Call(name, typed(returned), (*parameters_in_c(words_of(said)),))


def parameters_in_c(words):
    """The parameters of a call that is defined in C."""
    for at, word in enumerate(words):
        pointed = re.fullmatch(r"(const )?(.*?)( \*)?", word.type)
        pointer = ("const" if pointed[1] else "mut") if pointed[3] else ""
        if not is_length(words, at):
            yield Parameter(word.name, pointed[2], pointer, words[at + 1].name if is_length(words, at + 1) else "")


def is_length(words, at):
    """Whether a word is the number of what the pointer before it leads to."""
    return 0 < at < len(words) and words[at].type == "size_t" and LENGTH.fullmatch(words[at].name) and "*" in words[at - 1].type


def calls():
    """All calls of the library, in the header's order."""
    order = [*declared()]
    return sorted([*exports(), *defined_in_c()], key=lambda it: order.index(it.name) if it.name in order else len(order))


def declared():
    """What the header declares: by the name of each call what it answers, and its parameters."""
    found = re.findall(PROTOTYPE + ";", plain(read(HEADER)))
    return {name: (typed(returned), words_of(said)) for returned, name, said in found}


def prototype(call):
    """The parameters of a call as the header has to have them. The number of many may have a short name."""
    for it in call.parameters:
        yield Word(f"{'const ' * (it.pointer == 'const')}{it.type}{' *' * bool(it.pointer)}", RENAMED.get(it.name, it.name))
        if it.length:
            one, unit = it.name.rstrip("s"), it.length.rpartition("_")[2]
            yield Word("size_t", f"{it.length}|{one}_{unit}|{unit}|count|room")


def macro(name):
    """The value of a macro of the header."""
    found = re.search(rf'(?m)^#define {name} "?([\w.]+)"?$', read(HEADER))
    return found[1] if found else None


def version():
    """The version of all that the repository makes."""
    return read("VERSION").strip()


def major():
    """The number of the version that the shared library's name has."""
    return version().partition(".")[0]
