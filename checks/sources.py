"""The functions of the library's sources, by their structure: names, parameters with their types, bodies.

The sources are in the formatter's layout and the prover has read them, so a light reader serves.
"""
import functools
import pathlib
import re
from typing import NamedTuple

ROOT = pathlib.Path(__file__).resolve().parent.parent
CHANGED = {}  # texts that are looked at in place of what a file has, or as a file of their own, by path
LISTED = re.compile(r"(?m)^(\w+)[^:#\n]*:(.*)$")
USERS = {"vortex_fastlanes": True, "flcol_c": False}  # what stands on the library, and whether it is of it
BLANKED = re.compile(r"//[^\n]*|/\*.*?\*/|\"(?:\\.|[^\"\\])*\"|b?'(?:\\.|[^'\\\n])'", re.S)
TEST = re.compile(r"#\[(?:test|cfg\(test\))\]\s*(?:pub )?(?:fn|mod)\b[^{;]*")
FUNCTION = re.compile(r"\bfn\s+(\w+)")
OWNER = re.compile(r"(?m)^(?:pub(?:\([a-z]+\))? )?(?:impl|trait)\b([^{;]*)\{")
CLAUSE = re.compile(r"\b(?:requires|ensures|ghost)\b[^{}]*$")
RETURNED = re.compile(r"\s*->\s*(.*?)\s*(?:\b(?:requires|ensures|ghost|where)\b|$)", re.S)
USE = re.compile(r"(?m)^\s*(?:pub(?:\([a-z]+\))? )?use ([^;]+);")
TYPES = r"::<(?:->|\{[^{}]*\}|[^<>;{}]|<(?:->|[^<>;{}]|<[^<>;{}]*>)*>)*>"  # what a name is called for, in brackets
KEYWORD = r"(?!(?:as|break|else|for|if|impl|in|let|loop|match|move|mut|return|unsafe|where|while)\b)"
CALL = re.compile(rf"(\bself\.|(?<!\.)\.\s*|\b(?:\w+(?:{TYPES})?::)+|\b){KEYWORD}(\w+)(?:{TYPES})?\s*\(")
NAMED = re.compile(rf"(?<![.\w:])((?:\w+(?:{TYPES})?::)*){KEYWORD}(\w+)\b(?!\s*(?:{TYPES})?\(|\s*::\w|\s*:(?!:)|!)")  # no call
SPACED = re.compile(r"[ \n]*::[ \n]*(?=[\w<{{*])")
CONSTANT = re.compile(r"(?m)^ *(?:pub(?:\([a-z]+\))? )?(?:const|static) (\w+):")
UNSURE = re.compile(r"\||<[<= ]|(?<![-=])>[>= ]")  # commas that may stand in no list, or signs that may be no brackets
QUALIFIED = re.compile(r"(?<!::)<((?:[^<>(){};]|<[^<>(){};]*>)*)>::")  # a path that begins with a type in brackets
MACRO = re.compile(r"\bmacro_rules!\s*(\w+)\s*(?=[{(\[])")
CLOSURE = re.compile(r"(?:[(,={]|\bmove|\breturn)\s*(\|[^|\n]*\|)(?!\|)")
LOOP = re.compile(r"\b(?:for|while|loop)\b[^;{}]*$")
CLOSING = {"(": ")", "[": "]", "{": "}", "<": ">"}
BRACKETS = {it: re.compile(rf"\{it}|(?<![-=])\{CLOSING[it]}" if it == "<" else rf"\{it}|\{CLOSING[it]}") for it in CLOSING}


class Call(NamedTuple):
    """A call: 'self.', '.', a path that ends in '::', or nothing; the name; what a method is called on; the arguments, with
    what it is called on; whether these are all told apart; what stands before it, and where it stands."""

    before: str
    name: str
    receiver: str
    given: tuple
    is_sure: bool
    behind: str
    at: int

    @property
    def arguments(self):
        """How many arguments there are, or None."""
        return len(self.given) if self.is_sure else None


class Function:
    """A function that is no test. Its body is empty where a trait only declares it."""

    def __init__(self, file, owner, trait, name, generics, parameters, returned, body, is_public):
        self.file, self.owner, self.trait, self.name, self.generics = file, owner, trait, name, generics
        self.parameters, self.returned, self.body, self.is_public = parameters, returned, body, is_public
        self.looked = {}  # what was asked of it before

    @property
    def named(self):
        """The name, with its type or trait if it has one."""
        return f"{self.owner}::{self.name}" if self.owner else self.name

    def __str__(self):
        return f"{self.file.crate}::{self.file.module}: {self.named}"

    def takes(self, type_):
        """The names of the parameters of such a type."""
        if type_ not in self.looked:
            self.looked[type_] = [name for name, said in self.parameters if re.search(type_, said)]
        return self.looked[type_]

    def has(self, pattern):
        """Whether the body has such a text."""
        if pattern not in self.looked:
            self.looked[pattern] = pattern.search(self.body) is not None
        return self.looked[pattern]

    def with_body(self, body):
        """The same function with another body."""
        return Function(
            self.file, self.owner, self.trait, self.name, self.generics, self.parameters, self.returned, body, self.is_public
        )

    @functools.cached_property
    def calls(self):
        """The calls in the body."""
        return calls_in(self.body)

    @functools.cached_property
    def let(self):
        """The names that the body binds, but for those of patterns of a match."""
        patterns = re.findall(r"\blet\b([^=;]*)=|\bfor\b([^{;]*?)\bin\b|\|([^|;{}]*)\|", self.body)
        return {*re.findall(r"\w+", " ".join(map(" ".join, patterns)))}

    @functools.cached_property
    def named_values(self):
        """What is named and not called, and may be a function: its path and its name."""
        bound = self.let | {name for name, _ in self.parameters}
        return [(path, name) for path, name in NAMED.findall(self.body) if path or name not in bound]


class File:
    """A source file: its text without comments, and that without tests too, its impls, its imports and its functions."""

    def __init__(self, crate, path, text):
        self.crate = crate
        self.module = "::".join(path.relative_to(ROOT / "crates" / crate / "src").with_suffix("").parts)
        self.whole = blanked(text)
        self.text = with_plain_paths(without_tests(self.whole))
        self.owners = [*owners_of(self.text)]
        self.imports = dict(it for use in USE.findall(self.text) if "Rattle." not in use for it in imported(use))
        self.functions, self.constants = [*functions_of(self)], [*constants_of(self)]
        self.macros = {it.group(1): self.text[it.end() : end_of(self.text, it.end())] for it in MACRO.finditer(self.text)}
        self.looked = {}  # what was asked of it before

    def has(self, pattern):
        """Whether the text has such a text."""
        if pattern not in self.looked:
            self.looked[pattern] = pattern.search(self.text) is not None
        return self.looked[pattern]


@functools.cache
def file_of(crate, path, text):
    return File(crate, path, text)


def files_of(crate):
    """The source files of a crate, with the changed ones as they are changed."""
    folder = ROOT / "crates" / crate / "src"
    paths = {*folder.rglob("*.rt"), *(it for it in CHANGED if folder in it.parents)}
    return [file_of(crate, it, CHANGED.get(it) or it.read_text(encoding="utf-8")) for it in sorted(paths)]


def crates():
    """The crates of the repository, each with all those that it stands on, and itself."""
    listed = ROOT / "crates.txt"
    below = {name: on.split() for name, on in LISTED.findall(CHANGED.get(listed) or listed.read_text(encoding="utf-8"))}
    found = {}
    while len(found) < len(below):
        ready = [it for it in below if it not in found and all(on in found for on in below[it] if on in below)]
        found |= {it: {it}.union(*(found[on] for on in below[it] if on in below)) for it in ready}
    return found


def library():
    """The files of the library's crates: those on which its users stand."""
    below = crates()
    of_library = set().union(*(below[it] for it in USERS)) - {it for it, is_part in USERS.items() if not is_part}
    return [file for crate in below if crate in of_library for file in files_of(crate)]


def blanked(text):
    """The text with blanks for comments and for literals of text."""
    return BLANKED.sub(lambda it: re.sub(r"[^\n]", " ", it.group()), text)


def with_plain_paths(text):
    """The text with `Trait::name` for `<Type as Trait>::name`, `Type::name` for `<Type>::name`, and no blanks in paths."""
    text = SPACED.sub("::", text)
    return QUALIFIED.sub(lambda it: re.sub(r"<.*", "", it.group(1).rpartition(" as ")[2].strip()) + "::", text)


def without_tests(text):
    """The text without its test functions and test modules."""
    for test in reversed([*TEST.finditer(text)]):
        has_body = text[test.end() : test.end() + 1] == "{"
        text = text[: test.start()] + text[end_of(text, test.end()) if has_body else test.end() :]
    return text


def end_of(text, start):
    """Where the bracket that opens at start has closed. An arrow closes nothing."""
    opening, depth = text[start], 0
    for sign in BRACKETS[opening].finditer(text, start):
        depth += 1 if sign.group() == opening else -1
        if depth == 0:
            return sign.end()
    raise SyntaxError(f"this never closes: {text[start : start + 60]!r}")


def beginning_of(text, end):
    """Where the bracket opens that closes at end."""
    closing, depth = text[end], 0
    for at in range(end, -1, -1):
        depth += (text[at] == closing) - (CLOSING.get(text[at]) == closing)
        if depth == 0:
            return at
    raise SyntaxError(f"this never opens: {text[max(0, end - 60) : end + 1]!r}")


def calls_in(body):
    """The calls in a text."""
    found = []
    for call in CALL.finditer(body):
        before, name = call.group(1).rstrip(), call.group(2)
        is_method = before in (".", "self.")
        dot = call.start(1) + len(before) - 1
        start = receiver_start(body, dot) if is_method else call.start()
        receiver = re.sub(r"\s+", "", body[start:dot]) if is_method else ""
        said = body[call.end() : end_of(body, call.end() - 1) - 1]
        given, is_sure = (*[receiver][:is_method], *parts_of(said)), not UNSURE.search(said)
        found.append(Call(before, name, receiver, given, is_sure, body[:start].rstrip()[-12:], call.start(2)))
    return found


def receiver_start(body, dot):
    """Where that begins which stands before a method's dot: names, fields, paths and calls."""
    at = len(body[:dot].rstrip())
    while at and re.match(r"[\w.:?)\]]", body[at - 1]):
        at = beginning_of(body, at - 1) if body[at - 1] in ")]" else at - 1
        if body[at] == ".":
            at = len(body[:at].rstrip())
    return at


def parts_of(text):
    """The parts of a list, between its commas outside of brackets."""
    parts, depth, last = [], 0, 0
    for at, sign in enumerate(text):
        is_arrow = sign == ">" and text[at - 1] in "-="
        depth += (sign in "([{<") - (sign in ")]}>" and not is_arrow)
        if sign == "," and depth == 0:
            parts.append(text[last:at])
            last = at + 1
    return [it.strip() for it in [*parts, text[last:]] if it.strip()]


def imported(path, before=""):
    """The names that a `use` brings in, each with its path."""
    path = path.strip()
    head, brace, inner = path.partition("{")
    if brace:
        for part in parts_of(inner[: inner.rindex("}")]):
            yield from imported(part, before + head)
        return
    whole, _, other = (before + path).partition(" as ")
    yield other.strip() or whole.rpartition("::")[2], whole.strip()


def owners_of(text):
    """Where each impl and trait begins and ends, the name of the type or trait, and the trait that it is an impl of."""
    for head in OWNER.finditer(text):
        said = head.group(1).strip()
        said = said[end_of(said, 0) :] if said.startswith("<") else said
        trait, _, type_ = said.partition(" where ")[0].rpartition(" for ")
        name = re.match(r"[\s&(\[]*(?:'\w+ )?(?:\w+::)*(\w+)", type_).group(1)
        yield head.end() - 1, end_of(text, head.end() - 1), name, re.sub(r"<.*", "", trait.strip()).rpartition("::")[2]


def functions_of(file):
    text = file.text
    for found in FUNCTION.finditer(text):
        at = found.end()
        if text[at] == "<":
            at = end_of(text, at)
        generics, end = text[found.end() : at], end_of(text, at)
        parameters = [parameter(it) for it in parts_of(text[at + 1 : end - 1])]
        returned, body = rest_of(text, end)
        owner, trait = owner_at(file.owners, found.start())
        line = text[text.rfind("\n", 0, found.start()) + 1 : found.start()]
        is_public = line.lstrip().startswith("pub ") or trait != ""
        yield Function(file, owner, trait, found.group(1), generics, parameters, returned, body, is_public)


def constants_of(file):
    """The constants and statics that have a value, as functions without parameters."""
    for found in CONSTANT.finditer(file.text):
        signs = signs_outside(file.text, found.end())
        equals = next(at for at, sign in signs if sign in "=;,)>")
        if file.text[equals] == "=":
            value = file.text[equals + 1 : next(at for at, sign in signs if sign == ";")]
            owner, trait = owner_at(file.owners, found.start())
            yield Function(file, owner, trait, found.group(1), "", [], "", value, False)


def signs_outside(text, start):
    """The signs of a text from there on that stand in no brackets, each with its place. An arrow closes nothing."""
    depth = 0
    for at in range(start, len(text)):
        sign, is_arrow = text[at], text[at - 1] in "-=" and text[at] == ">"
        if depth == 0 and not is_arrow:
            yield at, sign
        depth += (sign in "([{<") - (sign in ")]}>" and not is_arrow)


def owner_at(owners, at):
    """The type or trait in whose impl this place lies, and the trait that it is an impl of."""
    return next(((name, of) for start, stop, name, of in owners if start < at < stop), ("", ""))


def parameter(said):
    """A parameter's name and type. The type of `self` is the form in which it is taken."""
    name, _, type_ = said.partition(":")
    return (re.sub(r"^mut ", "", name.strip()), type_.strip()) if type_ else ("self", said)


def rest_of(text, start):
    """The type that a function returns, and its body, behind its clauses."""
    returned, last, at = None, start, start
    while True:
        at = next(it for it in range(at, len(text)) if text[it] in "([{;")
        if text[at] in "([":
            at = end_of(text, at)
            continue
        before = text[last:at]
        if returned is None:
            match = RETURNED.match(before)
            returned = match.group(1) if match else ""
        if text[at] == ";":
            return returned, ""
        end = end_of(text, at)
        if not CLAUSE.search(before):
            return returned, text[at + 1 : end - 1]
        last = at = end


def loops_of(body):
    """Where each loop of a body begins and ends."""
    braces = [it.start() for it in re.finditer(r"\{", body)]
    return [(it, end_of(body, it)) for it in braces if LOOP.search(body[:it])]


def closures_of(body):
    """Where each closure of a body begins and ends: up to the bracket that closes round it, or a comma or semicolon."""
    return [(it.start(1), end_of_expression(body, it.end(1))) for it in CLOSURE.finditer(body)]


def end_of_expression(body, start):
    """Where the expression ends that begins at start: a block at its brace, else at a comma, semicolon or bracket."""
    depth = 0
    if body[start : start + 1] == "{":
        return end_of(body, start)
    for at in range(start, len(body)):
        if depth == 0 and body[at] in ",;)]}":
            return at
        depth += (body[at] in "([{") - (body[at] in ")]}")
    return len(body)


def arms_of(body, brace):
    """The arms of the match whose brace opens there: each pattern, and where what it answers begins and ends."""
    arms, at, end = [], brace + 1, end_of(body, brace) - 1
    while body[at:end].strip(" \n,"):
        arrow = body.index("=>", at)
        start = arrow + 2 + len(body[arrow + 2 :]) - len(body[arrow + 2 :].lstrip())
        arms.append((body[at:arrow].strip(" \n,"), start, end_of_expression(body, start)))
        at = arms[-1][2]
    return arms
