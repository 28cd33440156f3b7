"""What comes before a text: files of known definitions, and the names that the text leaves to C."""
import collections
import os

import rpclang

# C's types that libtirpc has a routine for, by what that writes.
C_TYPES = {name.encode(): written for written, names in {
    "int": "char short int8_t int16_t int32_t",
    "unsigned int": "u_char u_short u_int u_int8_t u_int16_t u_int32_t uint8_t uint16_t uint32_t",
    "unsigned long": "u_long",
    "hyper": "quad_t int64_t",
    "unsigned hyper": "u_quad_t u_int64_t uint64_t",
}.items() for name in names.split()}
NETOBJ = b"netobj", b"typedef opaque netobj<1024>;\n"

# The first number of those that foreign constants have, and how far they are apart.
FIRST_NUMBER, APART = 2 ** 30, 256


# What stands for a foreign name, which is one that the text leaves to C and that is no type of the table.
FORMS = {
    "constant": "const {name} = {number};\n",
    "type": "typedef int {name};\n",
    "struct": "struct {name} {{ opaque unknown<>; }};\n",
    "union": "union {name} switch (int known) {{ case 0: void; default: void; }};\n",
    "enum": "enum {name} {{ {name}__ = {number} }};\n",
}
KEYWORDS = "struct", "union", "enum"
# A foreign name: its number, and each mention of it with the item where it stands.
Foreign = collections.namedtuple("Foreign", "name number mentions")


def lacking(compilation):
    """The names that a text uses and nobody declares, in the order of their first mentions, each with all of
    them."""
    uses = {}
    for item, definition in enumerate(compilation.definitions):
        for mention in rpclang.mentioned(definition) if definition is not None else []:
            if mention.name not in compilation.first:
                uses.setdefault(mention.name, []).append((item, mention))
    return uses


def is_type_of_c(name):
    return name in C_TYPES or name == NETOBJ[0]


def c_types(names):
    """The definitions of the types of C among these names, in the order of the table."""
    told = [b"typedef %s %s;\n" % (C_TYPES[name].encode(), name) for name in C_TYPES if name in names]
    return told + [NETOBJ[1]] * (NETOBJ[0] in names)


def foreign_names(names, types):
    """Those of the names that are no types of the table, if that is asked; all names count for the numbers."""
    return [Foreign(name, FIRST_NUMBER + APART * k, mentions) for k, (name, mentions) in enumerate(names.items())
            if not (types and is_type_of_c(name))]


def foreign_definition(name, number, mentions):
    """What stands for a foreign name: by the first keyword before a mention of it, or else by the first mention."""
    needs = [mention.needs for _, mention in mentions]
    form = FORMS[next((need for need in needs if need in KEYWORDS), needs[0])]
    return form.format(name=name.decode(), number=number).encode()


def compiled(text, known, types=False, foreigners=False):
    """A text, before which definitions are known, and those that it lacks as far as they are taken from C."""
    compilation = rpclang.Compilation(text, known)
    names = lacking(compilation)
    foreign = foreign_names(names, types) if foreigners else []
    added = c_types(names) if types else []
    added += [foreign_definition(*name) for name in foreign]
    if added:
        compilation = rpclang.Compilation(text, rpclang.Compilation(b"".join(added), known).known_behind(None))
    compilation.foreign = [(item, mention.place) for item, mention in (name.mentions[0] for name in foreign)]
    compilation.foreign_uses = sorted((item, mention.place) for name in foreign for item, mention in name.mentions)
    return compilation


def items_led_to(compilation, item):
    """An item, and all that declare first what it or another one of them uses."""
    led, left = {item}, [item]
    while left:
        for mention in rpclang.mentioned(compilation.definitions[left.pop()]):
            first = compilation.own.get(mention.name)
            if first is not None and first.item >= 0 and first.item not in led:
                led.add(first.item)
                left.append(first.item)
    return led


def foreign_use(compilation, name):
    """The line and the column of the first mention of a foreign name among all that the definition of a name leads
    to; None where there is none."""
    first = compilation.own.get(name)
    if first is None or first.item < 0:
        return None
    led = items_led_to(compilation, first.item)
    for item, place in compilation.foreign_uses:
        if item in led:
            return rpclang.line_and_column(compilation.text, compilation.items[item][place].start)
    return None


class Faulty(Exception):
    """A known file has faults: its name and its compilation."""


def told_faults(path, compilation):
    """The faults of a file, one a line."""
    front = os.fsencode(path)
    return b"".join(
        b"%s:%d:%d: %d %s\n" % (front, at.line, at.column, at.code, rpclang.CODE_NAMES[at.code].encode())
        for at in compilation.faults)


def known_of(files, types=False, foreigners=False):
    """What is known by files of definitions, pairs of name and text: each may use those before it, and names of
    C as a text may."""
    known = rpclang.NOTHING
    for path, text in files:
        compilation = compiled(text, known, types, foreigners)
        if compilation.faults:
            raise Faulty(path, compilation)
        known = compilation.known_behind(os.fsencode(path))
    return known


def are_plain(files, types=False):
    """Whether no file takes a name as foreign: then none has a fault where no name may be."""
    try:
        known_of(files, types)
        return True
    except Faulty:
        return False
