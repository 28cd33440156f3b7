"""Random texts that are cut into known files and a text over them, and names of C in their definitions; and
edits that bring such names, change how they are used, declare them and take them away."""
import before
import random_texts
import rpclang

# Names of C, some of which are not in the table of its types, and names of nobody.
NAMES_OF_C = sorted(before.C_TYPES) + [b"netobj", b"netobj", b"u_int", b"char"]
NAMES = b"bool_t uint ulong Foo Bar BAZ QUX e e__ Foo__ _ a_b TRUE".split()


def with_names(chance, text, share):
    """The text, with names in place of some of its basic types and its values."""
    told, last = [], b""
    names = chance.choice([NAMES_OF_C, NAMES_OF_C + NAMES])
    for token in rpclang.tokens_of(text):
        word = token.text
        if last == b"unsigned" and word in (b"int", b"long", b"hyper"):
            word = b""
        if chance.random() < share:
            if word in random_texts.BASIC:
                last = word
                tag = chance.choice([b""] * 8 + [b"struct ", b"union ", b"enum "])
                word = tag + chance.choice(names)
            elif token.kind == "Number":
                word = chance.choice(NAMES if chance.random() < 0.9 else names)
        if token.kind != "Space":
            last = token.text if word == token.text else last
        told.append(word)
    return b"".join(told)


# Uses of one name: as a type, also after a keyword, and as a constant.
USES = [b"%s a%d;", b"%s *a%d;", b"%s a%d<>;", b"%s a%d[2];", b"struct %s a%d;", b"struct %s *a%d;",
        b"union %s a%d;", b"union %s *a%d;", b"enum %s a%d;", b"enum %s a%d<>;"]
CONSTANT_USES = [b"int a%d[%s];", b"opaque a%d<%s>;", b"string a%d<%s>;"]
SWITCHES = [b"%s d", b"%s d", b"%s d", b"enum %s d", b"struct %s d", b"%s *d", b"%s d<>"]


def use(chance, name, k):
    """A field that uses the name."""
    if chance.random() < 0.2:
        return chance.choice(CONSTANT_USES) % (k, name)
    return chance.choice(USES) % (name, k)


def uses(chance):
    """A definition that uses one name or a few of them several times, or one by which a union is switched."""
    names = chance.sample(NAMES + [b"u_int", b"char", b"quad_t"], chance.choice([1, 1, 2, 3]))
    fields = [use(chance, chance.choice(names), k) for k in range(chance.choice([1, 2, 3, 4]))]
    own = chance.randrange(100)
    if chance.random() < 0.4:
        return b"struct s9_%d { %s };\n" % (own, b" ".join(fields))
    cases = [b"case %s: %s" % (chance.choice(NAMES + [b"1", b"-1", b"4294967295", b"1073741824"]), field)
             for field in fields]
    switch = chance.choice(SWITCHES) % chance.choice(names)
    return b"union u8_%d switch (%s) { %s default: void; };\n" % (own, switch, b" ".join(cases))


def declaring(chance):
    """A definition of a name that may be C's."""
    name = chance.choice(NAMES + [b"u_int", b"char", b"netobj"])
    return chance.choice([b"typedef int %s;\n", b"typedef hyper %s;\n", b"const %s = 3;\n", b"struct %s { int a; };\n",
                          b"enum %s { E9 };\n", b"typedef bool %s;\n"]) % name


def edit_of_names(chance, text):
    """An edit that brings a name or a keyword before one, changes a name, declares one or takes a part away."""
    tokens = [token for token in rpclang.tokens_of(text) if token.kind != "Space"]
    names = [token for token in tokens if token.kind == "Name"]
    basic = [token for token in tokens if token.text in random_texts.BASIC or token.kind == "Number"]
    way = chance.random()
    if way < 0.35 or not names:
        at = chance.choice([0, 0, len(text), chance.choice(tokens).end if tokens else 0])
        return at, at, chance.choice([uses, uses, declaring])(chance)
    if way < 0.6 and basic:
        token = chance.choice(basic)
        return token.start, token.end, chance.choice(NAMES + NAMES_OF_C)
    token = chance.choice(names)
    if way < 0.7:
        return token.start, token.start, chance.choice([b"struct ", b"union ", b"enum "])
    if way < 0.85:
        return token.start, token.end, chance.choice(NAMES + [b"int", b"u_int", b"5"])
    end = text.find(b";", token.start) + 1
    return token.start, end or token.end, b""


def items_of(text):
    return [b"".join(token.text for token in item) for item in rpclang.items_of(rpclang.tokens_of(text))]


def numbered(chance):
    """A union that has a fault where a name of nobody has this number."""
    number = before.FIRST_NUMBER + before.APART * chance.randrange(4) + chance.choice([0, 0, 0, 1])
    words = chance.choice(NAMES), number, chance.choice(NAMES)
    return b"union u9 switch (int d) { case %s: case %d: case %s: void; };" % words


def some_items(chance, text):
    """The text's items, of which some may be left out or come twice."""
    items = items_of(text)
    if chance.random() < 0.5:
        items = [item for item in items if chance.random() < 0.85]
    if items and chance.random() < 0.3:
        items.insert(chance.randrange(len(items) + 1), chance.choice(items))
    return items


def cut(chance, items):
    """Two known files and two texts of all items, one after another. The first text has the most."""
    text = b"".join(items)
    ends = [0]
    for item in items:
        ends.append(ends[-1] + len(item))
    half = ends[:(len(ends) + 1) // 2]
    if chance.random() < 0.08:
        half.append(chance.randrange(len(text) + 1))
    first, second = sorted(chance.choice(half) for _ in range(2))
    third = chance.choice([len(text), len(text), chance.choice(ends)])
    return text[:first], text[first:second], text[second:third], text[third:]


def sound(text, known):
    """Without the items that have faults."""
    while True:
        compilation = rpclang.Compilation(text, known)
        if not compilation.faults:
            return text
        items = [item for k, item in enumerate(items_of(text)) if k not in compilation.faulty]
        text = b"".join(items)


def sound_files(files):
    """The files, each without its items that have faults over those before it."""
    kept = []
    for text in files:
        kept.append(sound(text, before.known_of([("", other) for other in kept])))
    return kept


def known_files(chance, files):
    """Most are such that the run goes on."""
    return files if chance.random() < 0.1 else sound_files(files)
