"""The definitions of the specifications, and what of them clauses say."""
import functools
import re
from typing import NamedTuple

from sources import OWNER, ROOT, blanked, end_of, without_tests

MODULE = re.compile(r"(?m)^(?:pub )?mod (\w+)")
IMPORT = re.compile(r"(?m)^ *(?:ghost |pub )?use Rattle\.(\w+)\.specs\.(\w+)(?:\.\{([^}]*)\}| as (\w+))")
HANDED_ON = re.compile(r"(?m)^pub use Rattle\.(\w+)\.specs\.(\w+)$")
BEGINNING = re.compile(r"( *)(?:abbrev |unfoldable )?(?:pub )?(?:data |record )?([^\s:]+)(?: [({].*)? : ")
BLOCK = re.compile(r"(?:abbrev |unfoldable )?mutual$|module ")
CONSTRUCTOR = re.compile(r"(?m)^ +(\w+) : ")
CLAUSE = re.compile(r"\b(?:ensures|requires|ghost)\b[^{};]*\{")
SAID = re.compile(r"[^\s(){}\[\],;]+")
FUNCTION = re.compile(r"(?m)^ *(pub )?(?:pub\([a-z]+\) )?(?:const )?fn +(\w+)")
PASSED_ON = re.compile(r"\bpub use ([^;]+);")
SEEN_AS = re.compile(r"\bghost Value = \{")
PUBLIC_MODULE = re.compile(r"(?m)^pub mod (\w+);")


def sign_of(name):
    """A name as a text says it: an operator is its sign."""
    return name.replace("◌", "")


class Names:
    """What a file's names stand for: a definition's place is its crate, its module and its name."""

    def __init__(self, text, own=()):
        self.imported, self.modules, self.own = {}, {}, own
        for crate, module, names, alias in IMPORT.findall(text):
            if alias:
                self.modules[alias] = (crate, module)
            for said in re.split(r",\s*", names) if names else []:
                name, _, other = said.strip().partition(" as ")
                self.imported[sign_of(other or name)] = (crate, module, sign_of(name))

    def places(self, text):
        """The places that the names of a text may stand for. A do block is made of the operator that binds."""
        for said in set(SAID.findall(text.replace("←", ">>="))):
            name, _, rest = said.partition(".")
            if name in self.modules:
                yield *self.modules[name], rest.partition(".")[0]
            elif name in self.imported:
                yield self.imported[name]
            elif self.own:
                yield *self.own, name


def definitions_of(path):
    """The definitions of a file of specs/: each name with its text. The fields of a record are part of it."""
    texts, current, depth = {}, None, 0
    for line in re.sub(r"(?m)--.*$", "", path.read_text(encoding="utf-8")).splitlines():
        begins = BEGINNING.match(line)
        if BLOCK.match(line):
            current = None
        elif begins and (current is None or len(begins[1]) <= depth and sign_of(begins[2]) != current):
            current, depth = sign_of(begins[2]), len(begins[1])
            texts[current] = line
        elif current is not None:
            texts[current] += "\n" + line
    return texts


class Definitions(NamedTuple):
    """The definitions of all crates: each place with its text, the place that a name belongs to, and the names of each file."""

    texts: dict
    owners: dict
    names: dict

    def place_of(self, crate, module, name):
        """The definition that a name of a module is, which may be passed on from another crate; None where there is none."""
        return self.owners.get((*handed_on().get((crate, module), (crate, module)), name))


@functools.cache
def handed_on():
    """The modules that crates pass on, each with where it stands."""
    return {
        (path.parts[-3], it[1]): it
        for path in ROOT.glob("crates/*/specs/Lib.antt")
        for it in HANDED_ON.findall(path.read_text(encoding="utf-8"))
    }


@functools.cache
def definitions():
    """The definitions of all crates."""
    found = Definitions({}, {}, {})
    for path in sorted(ROOT.glob("crates/*/specs/*.antt")):
        crate, module = path.parts[-3], path.stem
        if module == "Lib":
            continue
        found.names[crate, module] = Names(path.read_text(encoding="utf-8"), (crate, module))
        for name, text in definitions_of(path).items():
            place = (crate, module, name)
            found.texts[place] = text
            parts = CONSTRUCTOR.findall(text) if re.match(r" *pub data ", text) else []
            found.owners.update({(crate, module, it): place for it in [name, *parts]})
    return found


def clauses_in(text):
    """The clauses of a text."""
    return " ".join(text[it.end() : end_of(text, it.end() - 1)] for it in CLAUSE.finditer(text))


def clauses_of(path):
    """The text of a source's clauses, and of what its traits and models say."""
    return clauses_in(blanked(path.read_text(encoding="utf-8")))


def is_passed_on(path, crate):
    """Whether the modules on a source's path are public, down from its crate's root."""
    at = ROOT / "crates" / crate / "src"
    steps = path.relative_to(at).with_suffix("").parts
    parent = at / "lib.rt"
    for step in steps if steps != ("lib",) else ():
        if not parent.is_file() or step not in PUBLIC_MODULE.findall(parent.read_text(encoding="utf-8")):
            return False
        at = at / step
        parent = at.with_suffix(".rt")
    return True


def public_clauses_of(path, crate):
    """The text of the clauses of a source's public functions, of public traits, and of what types are seen as.

    A function is public where its module is, or where the crate passes on its name or that of its type. One whose name begins
    with prove_ is for proofs alone.
    """
    text = without_tests(blanked(path.read_text(encoding="utf-8")))
    owners = [(it.start(), end_of(text, it.end() - 1), it) for it in OWNER.finditer(text)]
    starts = [it for it in FUNCTION.finditer(text)]
    passed, is_public = passed_on(crate), is_passed_on(path, crate)
    for at, found in enumerate(starts):
        owner = next((head for start, end, head in owners if start < found.start() < end), None)
        said = owner[1] if owner else ""
        in_trait = owner is not None and (" for " in said or re.search(r"\btrait\b", owner[0]) is not None)
        names = {found[2], *re.findall(r"\w+", said)}
        if (found[1] or in_trait) and (is_public or names & passed) and not found[2].startswith("prove_"):
            ends = [it.start() for it in starts[at + 1 : at + 2]] + [start for start, _, _ in owners if start > found.start()]
            yield clauses_in(text[found.start() : min(ends, default=len(text))])
    for start, end, head in owners:
        if "Model for" in head[1]:
            yield from (text[it.end() : end_of(text, it.end() - 1)] for it in SEEN_AS.finditer(text, start, end))
        elif head[0].startswith("pub trait"):
            yield clauses_in(text[start : min([end, *(it.start() for it in starts if it.start() > start)])])


@functools.cache
def passed_on(crate):
    """The names that a crate passes on."""
    files = (ROOT / "crates" / crate / "src").rglob("*.rt")
    return {name for file in files for it in PASSED_ON.findall(file.read_text(encoding="utf-8")) for name in re.findall(r"\w+", it)}


def public_words(crates):
    """The places of the definitions that public clauses of these crates say."""
    known, found = definitions(), set()
    for crate in crates:
        for path in sorted((ROOT / "crates" / crate / "src").rglob("*.rt")):
            text = " ".join(public_clauses_of(path, crate))
            found |= {known.place_of(*it) for it in Names(path.read_text(encoding="utf-8")).places(text)} - {None}
    return found
