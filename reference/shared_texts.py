#!/usr/bin/env python3
"""Random texts of few names that many items use, with edits that change what is seen of them, from a seed.

    shared_texts.py EDITS SEED      prints how many kept items see something else after an edit, and what changes

A text has constants, enums, typedefs, structs and unions that use each other, and often a chain: types up to the
greatest height or beyond, each of which holds the one before, or constants of one another. Edits take definitions
away, put them back elsewhere, declare names twice, rename them, change numbers and kinds, have enums lose numbers and
structs grow, and bring faults; many are taken back.
"""
import collections
import random
import sys

sys.dont_write_bytecode = True

import random_texts
import rpclang
import work

SIZES = [b"1", b"2", b"3", b"4", b"7"]
NUMBERS = SIZES + [b"0", b"0x2", b"-1", b"2147483647", b"4294967296", b"99999999999999999999"]
FIELDS = [b"a", b"b", b"c", b"d"]
DEPTHS = [1, 1, 1, 2, 3, 8, 28, 30, 31, 32]


class Shared:
    """Makes definitions. Few break a rule: what uses a name mostly stands behind what declares it."""

    def __init__(self, chance):
        self.chance = chance
        self.constants = []
        self.types = []
        self.classes = {}           # the enumerators of an enum, by its name and by those of typedefs of it
        self.used = set()
        self.count = 0

    def pick(self, *choices):
        return self.chance.choice(choices)

    def likely(self, probability):
        return self.chance.random() < probability

    def fresh(self, letter):
        """A name for a new definition: one of a few, mostly one that no other has."""
        few = [b"%s%d" % (letter, k) for k in range(6)]
        free = [name for name in few if name not in self.used]
        if not free or self.likely(0.1):
            self.count += 1
            free = [b"n%d" % self.count]
        name = self.chance.choice(free if self.likely(0.97) else few)
        self.used.add(name)
        return name

    def value(self):
        if self.constants and self.likely(0.7):
            return self.chance.choice(self.constants)
        return self.chance.choice(SIZES if self.likely(0.97) else NUMBERS)

    def type(self):
        if self.types and self.likely(0.75):
            return self.chance.choice(self.types)
        if self.likely(0.95):
            return self.pick(b"int", b"bool", b"unsigned hyper", b"double")
        return b"s%d" % self.pick(0, 1, 2)

    def inline(self):
        """An inline type: its name is lifted into the text."""
        if self.likely(0.5):
            return b"struct { %s }" % self.fields(self.pick(1, 2))
        return b"enum { %s }" % self.enumerators()[0]

    def declaration(self, name):
        way = self.chance.random()
        if way < 0.08:
            return self.inline() + b" " + name
        if way < 0.45:
            return self.type() + b" " + name
        if way < 0.68:
            return b"%s %s[%s]" % (self.type(), name, self.value())
        if way < 0.92:
            # A link may look ahead.
            struct = b"s%d" % self.chance.randint(0, 5)
            kind = self.pick(self.type(), struct, struct, struct + b"_a")
            return self.pick(b"%s *%s" % (kind, name), b"%s %s<%s>" % (kind, name, self.pick(b"", self.value())))
        return self.pick(b"opaque %s[%s]", b"string %s<%s>") % (name, self.value())

    def fields(self, count):
        return b" ".join(self.declaration(name) + b";" for name in self.chance.sample(FIELDS, count))

    def enumerators(self):
        names = [self.fresh(b"E") for _ in range(self.chance.randint(1, 4))]
        words = [name + (b" = " + self.value() if self.likely(0.5) else b"") for name in names]
        self.constants += names
        return b", ".join(words), names

    def constant(self):
        value, name = self.value(), self.fresh(b"K")
        self.constants.append(name)
        return b"const %s = %s;" % (name, value)

    def enum(self):
        name = self.fresh(b"e")
        words, names = self.enumerators()
        self.types.append(name)
        self.classes[name] = names
        return b"enum %s { %s };" % (name, words)

    def typedef(self):
        name = self.fresh(b"t")
        if self.classes and self.likely(0.5):
            of = self.chance.choice(sorted(self.classes))
            self.classes[name] = self.classes[of]
            words = of + b" " + name
        else:
            words = self.declaration(name)
        self.types.append(name)
        return b"typedef %s;" % words

    def struct(self):
        name = self.fresh(b"s")
        words = self.fields(self.chance.randint(1, 4))
        self.types.append(name)
        return b"struct %s { %s };" % (name, words)

    def lifting(self):
        """A struct with an inline type, whose name others use."""
        name = self.fresh(b"s")
        self.types += [name + b"_a"] * 3
        return b"struct %s { %s a; };" % (name, self.inline())

    def union(self):
        name = self.fresh(b"u")
        if self.classes and self.likely(0.9):
            switch = self.chance.choice(sorted(self.classes))
            cases = self.chance.sample(self.classes[switch], min(len(self.classes[switch]), self.pick(1, 1, 2)))
        else:
            switch, cases = self.pick(b"int", b"unsigned", b"bool"), [self.pick(b"0", b"1")]
        arms = [b"case %s: %s;" % (case, self.declaration(arm)) for case, arm in zip(cases, FIELDS)]
        arms += self.pick([], [b"default: void;"])
        self.types.append(name)
        return b"union %s switch (%s d) { %s };" % (name, switch, b" ".join(arms).replace(b" d;", b" e;"))

    def program(self):
        name = self.fresh(b"P")
        kinds = self.type(), self.type(), self.type()
        return b"program %s { version V { %s F(%s, %s) = 1; } = 1; } = 7;" % (name, *kinds)

    def definition(self):
        return self.pick(self.constant, self.constant, self.enum, self.typedef, self.typedef, self.struct, self.struct,
                         self.lifting, self.lifting, self.union, self.union, self.program)()

    def definitions(self, low, high):
        return [self.definition() for _ in range(self.chance.randint(low, high))]

    def chain(self):
        """Types one over the other, or constants, each of which is the one before."""
        top, way = self.chance.randint(20, 34), self.chance.random()
        if way < 0.2:
            names = [b"k%d" % k for k in range(1, top + 1)]
            self.constants += names
            return [b"const %s = %s;" % pair for pair in zip(names, [b"1"] + names)]
        names = [b"h%d" % k for k in range(1, top + 1)]
        self.types += names
        if way < 0.5:
            # A typedef is switched on as what it stands for.
            self.classes[names[-1]] = [b"H1", b"H2"]
            first = b"enum h1 { H1, H2 = %s };" % self.value()
            return [first] + [b"typedef %s %s;" % pair for pair in zip(names, names[1:])]
        forms = [b"struct %s { int b; %s a; };", b"struct %s { %s a[2]; };",
                 b"union %s switch (int d) { case 1: %s a; };"]
        if self.likely(0.5):
            forms = [self.chance.choice(forms)]
        return [b"struct h1 { int a[%s]; };" % self.value()] + [
            self.chance.choice(forms) % (name, under) for under, name in zip(names, names[1:])]

    def text(self):
        definitions = self.definitions(0, 10)
        if self.likely(0.45):
            definitions += self.chain()
        definitions += self.definitions(3, 16)
        ends = [b"\n", b"\n", b"\n", b" ", b"\n%line\n", b" /* note */\n"]
        return b"".join(line + self.chance.choice(ends) for line in definitions)


class Editor:
    """Makes one edit of a text after another, and keeps what it took away and what takes its edits back."""

    def __init__(self, chance):
        self.chance = chance
        self.taken = []
        self.backs = []
        self.count = 0

    def pick(self, *choices):
        return self.chance.choice(choices)

    def early(self, values):
        """One of these, more often one of the first, which more others use."""
        return values[int(len(values) * self.chance.random() ** 2)]

    def blank(self, tokens):
        token = self.early(tokens)
        return token.start, token.start, self.pick(b" ", b"\n", b"/* x */")

    def take_away(self, text, spans):
        """A definition less, often the first of two that are alike."""
        pieces = [text[start:end].strip() for start, end in spans]
        twice = [span for k, span in enumerate(spans) if pieces[k] in pieces[k + 1:]]
        start, end = self.chance.choice(twice) if twice and self.chance.random() < 0.6 else self.early(spans)
        self.taken.append(text[start:end])
        return start, end, b""

    def put_back(self, spans):
        definition = self.taken.pop(self.chance.randrange(len(self.taken)))
        at = self.pick(0, self.chance.choice(spans)[0], self.chance.choice(spans)[0], spans[-1][1])
        return at, at, definition

    def double(self, text, spans):
        """A definition once more, before or behind itself."""
        start, end = self.early(spans)
        at = self.pick(0, start, self.chance.choice(spans)[0], spans[-1][1], spans[-1][1])
        return at, at, text[start:end]

    def lift(self, names, spans):
        """A definition of a name that is lifted, too, where there is such."""
        lifted = [name.text for name in names if b"_" in name.text]
        at = self.pick(0, self.early(spans)[0])
        name = self.chance.choice(lifted or [b"s1_a"])
        return at, at, self.pick(b"struct %s { int a; };", b"enum %s { R = 1 };") % name

    def swap(self, text, spans):
        """Two definitions in each other's place, by one edit."""
        first, last = sorted([self.early(spans), self.early(spans)])
        if first == last:
            return first[0], first[0], b" "
        between = text[first[1]:last[0]]
        return first[0], last[1], text[last[0]:last[1]] + between + text[first[0]:first[1]]

    def rename(self, names):
        """One use of a name becomes another's, or one that nobody has."""
        self.count += 1
        name = self.early(names)
        other = self.pick(self.chance.choice(names).text, self.early(names).text, b"m%d" % self.count)
        return name.start, name.end, other

    def count_otherwise(self, numbers):
        number = self.early(numbers)
        return number.start, number.end, self.chance.choice(self.pick(SIZES, SIZES, NUMBERS))

    def lose(self, tokens):
        """What stands from a comma to the next one or to what closes: mostly an enumerator."""
        first = self.early([k for k, token in enumerate(tokens) if token.text == b","] or [0])
        last = next((k for k in range(first + 1, len(tokens)) if tokens[k].text in (b",", b"}", b")")), first)
        return tokens[first].start, tokens[last].start, b""

    def gain(self, enums):
        """One enumerator more, before all others or behind them."""
        self.count += 1
        opening, closing = self.early(enums)
        more = self.pick(b"E%d" % self.pick(0, 1, 2), b"G%d" % self.count) + b" = %d" % self.chance.randint(0, 5)
        return self.pick((opening.end, opening.end, b" " + more + b","), (closing.start, closing.start, b", " + more))

    def grow(self, structs, names):
        """A struct gets a field of so many structs inside one another."""
        self.count += 1
        depth, inside = self.chance.choice(DEPTHS), self.pick(b"int", b"int", self.early(names).text)
        field = b"struct { " * depth + inside + b" g;" + b" } g;" * (depth - 1) + b" } g%d;" % self.count
        place = self.early(structs).end
        return place, place, b" " + field

    def spoil(self, structs, tokens):
        """A fault in a struct or somewhere."""
        place = self.early(structs or tokens).end
        faults = [b" void;", b" void;", b" int a; int a;", b" int w[0];", b" nobody w;", b"@", b"}", b"{"]
        return place, place, self.chance.choice(faults)

    def remake(self, items):
        """Another definition of a name."""
        item = self.chance.choice(items)
        words = [token for token in item if token.kind in ("Keyword", "Name")]
        name = words[-1 if words[0].text == b"typedef" else 1].text
        makers = [b"const %s = 2;", b"typedef int %s;", b"struct %s { int a; };", b"enum %s { R = 1 };",
                  b"union %s switch (bool d) { case 1: void; };", b"typedef bool %s;",
                  b"struct R { struct { int a; } %s; };"]
        return words[0].start, item[-1].end, self.chance.choice(makers) % name

    def brace(self, spans):
        at = self.pick(0, self.early(spans)[0])
        return at, at, self.pick(b"{", b"{", b"}", b"/*")

    def any_edit(self, text):
        """An edit of whole words or definitions, where there are such."""
        tokens = rpclang.tokens_of(text)
        items = rpclang.items_of(tokens)[:-1]
        names = [token for token in tokens if token.kind == "Name"]
        numbers = [token for token in tokens if token.kind == "Number"]
        if not items or not names or not numbers:
            return random_texts.random_edit(self.chance, text)
        spans = [(item[0].start, item[-1].end) for item in items]
        plain = [item for item in items if sum(token.kind in ("Keyword", "Name") for token in item) > 1]
        words = [token for token in tokens if token.kind != "Space"]
        structs = [third for first, second, third in zip(words, words[1:], words[2:])
                   if first.text == b"struct" and second.kind == "Name" and third.text == b"{"]
        openings = [k for k, token in enumerate(words) if token.text == b"{"
                    and b"enum" in [word.text for word in words[max(0, k - 2):k]]]
        enums = [(words[k], next((other for other in words[k:] if other.text == b"}"), words[k])) for k in openings]
        ways = {
            "blank": (2, lambda: self.blank(tokens)),
            "take away": (3, lambda: self.take_away(text, spans)),
            "put back": (5 if self.taken else 0, lambda: self.put_back(spans)),
            "double": (2, lambda: self.double(text, spans)),
            "lift": (2, lambda: self.lift(names, spans)),
            "swap": (2, lambda: self.swap(text, spans)),
            "rename": (4, lambda: self.rename(names)),
            "count": (3, lambda: self.count_otherwise(numbers)),
            "lose": (3, lambda: self.lose(tokens)),
            "gain": (2 if enums else 0, lambda: self.gain(enums)),
            "grow": (3 if structs else 0, lambda: self.grow(structs, names)),
            "spoil": (3, lambda: self.spoil(structs, tokens)),
            "remake": (3 if plain else 0, lambda: self.remake(plain)),
            "brace": (1, lambda: self.brace(spans)),
            "likely": (1, lambda: random_texts.likely_edit(self.chance, text)),
            "any": (0.3, lambda: random_texts.random_edit(self.chance, text)),
        }
        way = self.chance.choices(list(ways), [weight for weight, _ in ways.values()])[0]
        return ways[way][1]()

    def edit(self, text):
        """The next edit: often the one that takes the last one back."""
        if self.backs and self.chance.random() < 0.4:
            return self.backs.pop()
        start, end, insert = self.any_edit(text)
        if random_texts.is_taken(text, (start, end, insert)):
            self.backs.append((start, start + len(insert), text[start:end]))
        return start, end, insert


def shared_case(seed):
    """A text and a list of edits."""
    chance = random.Random(f"shared {seed}")
    text = first = Shared(chance).text()
    editor, edits = Editor(chance), []
    for _ in range(chance.randint(4, 24)):
        edit = editor.edit(text)
        edits.append(edit)
        text = random_texts.edited(text, edit)
    return first, edits


# ---------------------------------------------------------------- as a program

def change_of(was, sees):
    """What changes of a view, in words."""
    if was.declarer != sees.declarer:
        return f"declarer: {was.declarer} to {sees.declarer}"
    if (was.shape, was.lifted) != (sees.shape, sees.lifted):
        return "kind" if was.shape != sees.shape else "lifted"
    if rpclang.BAD in (was.meaning, sees.meaning):
        return f"meaning: {'a good one to bad' if sees.meaning == rpclang.BAD else 'bad to a good one'}"
    if isinstance(was.meaning, rpclang.Constant):
        return "meaning: another number"
    height = was.meaning.height != sees.meaning.height
    if was.meaning.discriminant != sees.meaning.discriminant:
        return "meaning: another class" + (" and height" if height else "")
    return "meaning: another height"


def band(count):
    """A number, or between which ones it is."""
    for low, high in [(1, 3), (4, 10), (11, 30), (31, 100)]:
        if low <= count <= high:
            return f"{low} to {high}"
    return "none" if count == 0 else "over 100"


def main(words):
    count, seed = int(words[0]), words[1]
    kept, changes, done, case = collections.Counter(), collections.Counter(), 0, 0
    while done < count:
        text, edits = shared_case(f"{seed}/{case}")
        case += 1
        reading = work.Reading(text)
        for edit in edits:
            done += 1
            if not random_texts.is_taken(reading.text, edit):
                kept["refused"] += 1
                continue
            new = work.Reading(work.edited(reading.text, edit))
            views = work.changed_views(reading, new, work.kept_items(reading, edit, new))
            changed = [pairs for pairs in views.values() if pairs]
            kept[band(len(changed))] += 1
            changes.update({change_of(*pair) for pairs in changed for pair in pairs.values()})
            reading = new
    print(f"{done} edits of {case} texts: edits with so many kept items that see something else")
    for name, often in kept.most_common():
        print(f"{often:7} {name}")
    print("edits with such a change of what a kept item sees")
    for name, often in sorted(changes.items()):
        print(f"{often:7} {name}")


if __name__ == "__main__":
    main(sys.argv[1:])
