"""The names that a faultless text gives to C, and where they clash: with one another, and with names that C has.

It is worked out from the rules of C (ISO/IEC 9899:2011) for what the four texts declare and define:

- 6.2.3: labels, tags, the members of each struct or union, and all other names ("ordinary" ones: types by a
  typedef, functions, objects, enumerators) are name spaces of their own.
- 6.2.1, 6.2.2, 6.7p3, 6.7.2.3p1, 6.9p3: within one scope and name space a name stands for one thing, and that is
  defined once. All ordinary names here have file scope, and so have all tags. A type with a tag is an ordinary
  name too, by its typedef, so tags of a text meet where their ordinary names meet.
- 6.2.1p4: in a function's body the parameters hide ordinary names of file scope, so a type or a constant with the
  name of a parameter is not to be seen there. A variable hides what is used before it in no text.
- 6.10.3p1-2: a macro, also one of the headers, is defined again only with the same replacement; 6.10.3p9: its name
  is replaced wherever it stands later, whatever it is there, a member too (5.1.1.2: that comes before all names are
  looked at).
- 6.10.3p10: one with parameters is replaced only before a '(', which stands behind functions alone.
- 6.4.1p2: keywords are reserved in all of that, and 7.1.3, 7.1.2p4: what headers declare is not declared again.

The names that C has are those of the table of the crate x_taken. What a macro of the headers stands for is there where
that is one number.
"""
import collections
import functools
import os
import re

import rpclang
from rpclang import Const, EnumBody, Program, UnionBody

# What a name is in C: a macro, a type that has a tag too, a function, any other ordinary name, or a member.
MACRO, TAGGED, FUNCTION, OTHER, MEMBER = "macro", "tagged", "function", "other", "member"
FILE_SCOPE = TAGGED, FUNCTION, OTHER
ALL = (MACRO, *FILE_SCOPE, MEMBER)

# What a thing is, with its name in C and the word that it is told at. `of` is what a macro stands for, or the struct
# or union that a member is of.
Thing = collections.namedtuple("Thing", "item word name kind of", defaults=[None])
# A clash at a word of an item: the name in C, and the kind of name that C has, or (item, word) of the other thing.
Clash = collections.namedtuple("Clash", "item word name other")

# The kinds of names that C has, by the constants of x_taken in their order: what the names are, whom they meet, and
# how that is told.
Taken = collections.namedtuple("Taken", "kind meets said")
TAKEN = {
    "KEYWORDS": Taken("Keyword", ALL, "is a keyword of C"),
    "KEYWORDS_OF_CPP": Taken("KeywordOfCpp", ALL, "is a keyword of C++"),
    "MACROS": Taken("Macro", ALL, "is a macro of C's headers"),
    "CALL_MACROS": Taken("CallMacro", (MACRO, FUNCTION), "is a macro of C's headers"),
    "NAMES": Taken("Name", (MACRO, *FILE_SCOPE), "is a name of C's headers"),
    "TAGS": Taken("Tag", (MACRO, TAGGED), "is a name of C's headers"),
    "TAGGED_NAMES": Taken("TaggedName", (MACRO, *FILE_SCOPE), "is a name of C's headers"),
    "PARAMETERS": Taken("Parameter", (MACRO, TAGGED, OTHER), "is a parameter of generated functions"),
    "VARIABLES": Taken("Variable", (MACRO,), "is a variable of generated functions"),
}
SAID = {taken.kind: taken.said for taken in TAKEN.values()}
NAMES_OF_C = os.path.join(os.path.dirname(os.path.abspath(__file__)), "../crates/x_taken/src/names.rt")


@functools.lru_cache(None)
def lists_of_c():
    """The words of each constant of the table."""
    with open(NAMES_OF_C, encoding="ascii") as file:
        lists = re.findall(r'const (\w+): &str = "([^"]*)";', file.read())
    return {constant: words.replace("\\\n", " ").encode().split() for constant, words in lists}


@functools.lru_cache(None)
def names_of_c():
    """Of each name that C has, the kind; that of the first list that has it."""
    kinds = {}
    for constant, taken in TAKEN.items():
        for name in lists_of_c()[constant]:
            kinds.setdefault(name, taken)
    return kinds


@functools.lru_cache(None)
def numbers_of_c():
    """Of each macro that C has for one number, the spelling of that."""
    return dict(word.split(b"=") for word in lists_of_c()["NUMBERS"])


# ---------------------------------------------------------------- the things of a text

def things_of_constant(item, definition):
    yield Thing(item, definition.name.place, definition.name.text, MACRO, definition.value.text)


def things_of_program(item, definition):
    """The macro of the program; of each version, and behind it of each of its procedures, all names."""
    yield Thing(item, definition.name.place, definition.name.text, MACRO, definition.number.text)
    for version in definition.versions:
        word, number = version.name.place, b"%d" % rpclang.number_of(version.number.text)
        yield Thing(item, word, version.name.text, MACRO, version.number.text)
        for name in (b"table", b"nproc"):
            yield Thing(item, word, b"_".join([definition.name.text.lower(), number, name]), OTHER)
        for procedure in version.procedures:
            yield from things_of_procedure(item, number, procedure)


def things_of_procedure(item, version, procedure):
    word, function = procedure.name.place, procedure.name.text.lower() + b"_" + version
    yield Thing(item, word, procedure.name.text, MACRO, procedure.number.text)
    yield Thing(item, word, function, FUNCTION)
    yield Thing(item, word, function + b"_svc", FUNCTION)
    if len(procedure.arguments) > 1:
        yield Thing(item, word, function + b"_argument", TAGGED)
        yield Thing(item, word, b"xdr_" + function + b"_argument", FUNCTION)
        for k in range(1, len(procedure.arguments) + 1):
            yield Thing(item, word, b"arg%d" % k, MEMBER, (item, word))


def things_of_types(item, definition):
    """The names that the definition declares, in the order of their words, each with what it brings."""
    parts = {(part.word.place, part.lifted): part for part in rpclang.parts_of(definition)}
    for name in rpclang.declared(definition):
        part = parts.get((name.place, name.lifted))
        if part is None or part.name != name.name:
            yield Thing(item, name.place, name.name, OTHER)
        else:
            yield from things_of_part(item, part)


def things_of_part(item, part):
    """A type, its routine and its members."""
    word, of = part.word.place, (item, part.word.place, part.name)
    is_typedef = isinstance(part.body, rpclang.Declaration)
    yield Thing(item, word, part.name, OTHER if is_typedef else TAGGED)
    yield Thing(item, word, b"xdr_" + part.name, FUNCTION)
    if is_typedef:
        yield from things_of_list(item, part.body)
    if is_typedef or isinstance(part.body, EnumBody):
        return
    first, *others = [declaration for declaration in rpclang.declarations_in(part.body) if declaration.form != "void"]
    yield from things_of_member(item, first, of)
    # What the arms hold is of the union inside the struct.
    inside = (of, "union") if isinstance(part.body, UnionBody) else of
    for declaration in others:
        yield from things_of_member(item, declaration, inside)
    if isinstance(part.body, UnionBody) and others:
        yield Thing(item, word, part.name + b"_u", MEMBER, of)


def things_of_member(item, declaration, of):
    yield Thing(item, declaration.name.place, declaration.name.text, MEMBER, of)
    yield from things_of_list(item, declaration)


def things_of_list(item, declaration):
    """The members of the struct for a length and what it counts."""
    if declaration.form in ("counted", "opaque counted"):
        word = declaration.name.place
        for name in (b"_len", b"_val"):
            yield Thing(item, word, declaration.name.text + name, MEMBER, (item, word, "list"))


def things_of(compilation):
    """All names that a text gives to C, in the order in which they are gone over."""
    for item, definition in enumerate(compilation.definitions):
        if isinstance(definition, Const):
            yield from things_of_constant(item, definition)
        elif isinstance(definition, Program):
            yield from things_of_program(item, definition)
        elif definition is not None:
            yield from things_of_types(item, definition)


# ---------------------------------------------------------------- clashes

def first_met(thing, others):
    """The first other thing of this name that it meets, members of one struct aside: a macro, one at file scope, or
    a member."""
    macros = [other for other in others if other.kind == MACRO and (thing.kind != MACRO or other.of != thing.of)]
    at_file_scope = [other for other in others if other.kind in FILE_SCOPE and thing.kind != MEMBER]
    members = [other for other in others if other.kind == MEMBER and thing.kind == MACRO]
    return next(iter(macros + at_file_scope + members), None)


def is_in_way(taken, thing):
    """Whether what C has a name for, if it has it, is in the way of a thing. A macro may be defined again as it is."""
    if taken is None or thing.kind not in taken.meets:
        return False
    return thing.kind != MACRO or numbers_of_c().get(thing.name) != thing.of


def met_by(thing, others):
    """What a thing meets, before which these have its name: the kind of name that C has, the other member of its
    struct, and the other thing."""
    taken = names_of_c().get(thing.name)
    met = [taken.kind] if is_in_way(taken, thing) else []
    if thing.kind == MEMBER:
        met += [other for other in others if (other.kind, other.of) == (MEMBER, thing.of)][:1]
    other = first_met(thing, others)
    return met if other is None else met + [other]


def meetings_of(compilation):
    """The pairs of a thing and what it meets, a kind of name that C has or another thing, in the order of words."""
    assert not compilation.faults
    before = collections.defaultdict(list)
    pairs = []
    for thing in things_of(compilation):
        others = before[thing.name]
        pairs += [(thing, other) for other in met_by(thing, others)]
        others.append(thing)
    return sorted(pairs, key=lambda pair: (pair[0].item, pair[0].word))


def clashes_of(compilation):
    """The clashes of a text without a fault, in the order of their words."""
    return [Clash(thing.item, thing.word, thing.name, other if isinstance(other, str) else (other.item, other.word))
            for thing, other in meetings_of(compilation)]


def warning(path, compilation, clash):
    """A line about a clash."""
    def place(item, word):
        start = compilation.items[item][word].start
        return b"%s:%d:%d" % (path, *rpclang.line_and_column(compilation.text, start))
    if isinstance(clash.other, str):
        said = SAID[clash.other].encode()
    else:
        said = b"has two meanings in C; the other is at " + place(*clash.other)
    return place(clash.item, clash.word) + b": warning: '" + clash.name + b"' " + said + b"\n"


def warnings(path, compilation):
    return b"".join(warning(path, compilation, clash) for clash in clashes_of(compilation))
