"""Which function of the library a call means, what is called on a child, and which functions count by a `Work`.

A call means rather too many functions than too few: a path that ends in a module's name every function of that name, and a
method that of every type, where the type isn't said.
"""
import functools
import re

from sources import crates, library

LENT = r"^&(?:'\w+ )?mut (?:\w+::)*Work$"
NAMED = re.compile(r"\bWork\b")
WORD_TRAITS = ("FastLanes", "Storage")
TYPES = re.compile(r"<.*>")
# What an array is made of, as it is asked for, and as the patterns and parameters of counting functions name it.
PARTS = re.compile(r"(?:self|array)\.(?:encoded|bases|deltas|values|indices|offsets|boundaries)\(\)")
CHILDREN = ("boundaries", "references", "indices")
# Where the encoded items are what is counted, and so no child.
OF_ENCODED = {"fl_array::for_::for_compare: FoRArray::test_packed_counted"}
# What counts nothing, and reads the boundaries that it is handed, for functions that count.
OF_BOUNDARIES = {"fl_array::bitpacking::single_items: BitPackedArray::extent_between"}


class Library:
    """The library's files and functions, constants with their values among them, which of them a call means, and which make
    a Work: those of which this holds, and all that reach one."""

    def __init__(self, makes):
        self.files, self.below, self.named, self.called, self.known = library(), crates(), {}, {}, {}
        self.functions = [it for file in self.files for it in [*file.functions, *file.constants]]
        self.constants = {it for file in self.files for it in file.constants}
        for function in self.functions:
            self.named.setdefault(function.name, []).append(function)
        self.renamed = {}
        for new, path in (it for file in self.files for it in file.imports.items()):
            if last_of(path) != new:
                self.renamed.setdefault(new, set()).add(last_of(path))
        self.made = self.reaching({it for it in self.functions if makes(it)})

    def of_name(self, function, name, arguments):
        """The functions that a name may stand for there, also as another name for one."""
        asked = function.file.crate, name, arguments
        if asked not in self.known:
            self.known[asked] = [*self.stood_for(*asked)]
        return self.known[asked]

    def stood_for(self, crate, name, arguments):
        names, new = set(), {name}
        while new:
            names |= new
            new = set().union(*(self.renamed.get(it, ()) for it in new)) - names
        for it in (it for one in sorted(names) for it in self.named.get(one, ())):
            if it.file.crate in self.below[crate] and (arguments in (None, len(it.parameters)) or it in self.constants):
                yield it

    def meant(self, function, before, name, arguments=None):
        """The functions that a call may mean: by its path, its file, its imports, or as a method by its name."""
        path = "" if before else function.file.imports.get(name, "")
        known = self.of_name(function, last_of(path) or name, arguments)
        methods, free = [it for it in known if it.owner], [it for it in known if not it.owner]
        if before == "":
            here = [it for it in free if it.file is function.file]
            crate = function.file.crate if path.startswith(("crate::", "self::", "super::")) else path.partition("::")[0]
            return here or [it for it in free if it.file.crate == crate] or free
        if before == ".":
            return methods
        last = last_of(TYPES.sub("", before).removesuffix("::"))
        owner = function.owner if before in ("self.", "Self::") else last
        of_module = free if before != "self." and not last[:1].isupper() else []
        return [it for it in methods if owner in (it.owner, it.trait)] or of_module or methods

    def is_step(self, name):
        """Whether a method of this name is one of the words alone."""
        return all(it.owner in WORD_TRAITS or it.trait in WORD_TRAITS for it in self.named[name])

    def calls(self, function):
        """The calls of a function, each with what it may mean."""
        if function not in self.called:
            meant = [(it, self.meant(function, it.before, it.name, it.arguments)) for it in function.calls]
            self.called[function] = [(call, callee) for call, callees in meant for callee in callees]
        return self.called[function]

    def values(self, function):
        """What a function names and does not call: other functions as values, and constants."""
        return [callee for path, name in function.named_values for callee in self.meant(function, path, name) if path or not callee.owner]

    def reached(self, function):
        """The functions that a function calls on its own array, or names."""
        return [callee for call, callee in self.calls(function) if not is_child(call.receiver, function)] + self.values(function)

    def reaching(self, found):
        """The functions that reach one of these."""
        callers = {}
        for function in self.functions:
            for callee in self.reached(function):
                callers.setdefault(callee, set()).add(function)
        new = reaching = set(found)
        while new:
            new = {caller for it in new for caller in callers.get(it, ())} - reaching
            reaching = reaching | new
        return reaching


def last_of(path):
    return path.rpartition("::")[2]


def is_child(said, function):
    """Whether this is an array that the function's own array is made of."""
    if said.endswith(")") and PARTS.fullmatch(said):
        return not (said.endswith("encoded()") and str(function) in OF_ENCODED)
    return said in CHILDREN and said in children_of(function)


def is_handed_children(function):
    """Whether the parameters of a function that are named as children are such: wherever it is called, that is checked."""
    return counts(function) or str(function) in OF_BOUNDARIES


@functools.cache
def children_of(function):
    """The names of children in a function: those that a pattern of boundaries or references binds, and the parameters of a
    function that is handed children. What a closure, a loop or another pattern binds is none."""
    names = {*re.findall(r"::Blocked\((\w+)\)", function.body), *(it for it, _ in function.parameters if is_handed_children(function))}
    return {it for it in names if it in CHILDREN and not is_bound_anew(it, function.body)}


def is_bound_anew(name, body):
    """Whether a closure, a loop, a pattern of another kind or an assignment binds a name."""
    patterns = [*re.findall(r"(?m)^(.*?)=>", body), *re.findall(r"(?m)^(.*)\n *if .*=>", body)]
    arms = [it for it in patterns if re.search(rf"(?<!::Blocked\()\b{name}\b", it)]
    of_closure, of_loop = rf"\|[^|;{{}}]*\b{name}\b[^|;{{}}]*\|", rf"\bfor\b[^{{;]*\b{name}\b[^{{;]*\bin\b"
    assigned = rf"(?<!let )(?<!let mut )(?<![.\w]){name} = "
    return bool(arms) or re.search(rf"{of_closure}|{of_loop}|{assigned}", body) is not None


@functools.cache
def field_of(file, owner):
    """The field in which a struct has a Work, or borrows one."""
    field = re.search(rf"\bstruct {owner}\b[^;{{]*\{{[^}}]*\b(\w+): (?:&'\w+ mut )?(?:\w+::)*Work\b", file.text)
    return re.compile(rf"\bself\.{field.group(1)}\b") if field else None


def keeps_work(function):
    """Whether a method's struct has a Work, or borrows one, which the method lends."""
    field = field_of(function.file, function.owner) if function.owner else None
    return field is not None and function.has(field)


def answers_work(function):
    return NAMED.search(function.returned) is not None and function.returned != "&Work"


@functools.cache
def counts(function):
    """Whether a contract speaks of what the function reads."""
    return bool(function.takes(LENT)) or answers_work(function) or keeps_work(function)
