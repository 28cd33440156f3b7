#!/usr/bin/env python3
"""Random texts of the language with edits, from a seed.

    random_texts.py TEXTS SEED                  prints how often each fault code comes up
    random_texts.py --faultless TEXTS SEED      prints how often each form comes up in texts without a fault

A text is made of definitions whose names come from a small pool, so that they collide and refer to each other. Most are
made with care, which keeps the rules; some are then spoiled. Texts without a fault are those of full care in which the
reference finds none, and so are their edits.
"""
import collections
import random
import sys

sys.dont_write_bytecode = True

import rpcedit
import rpclang

POOL = [b"a", b"b", b"c", b"d", b"e", b"f", b"s", b"u", b"t", b"A", b"B", b"C", b"D", b"LIMIT", b"_x", b"s_b", b"u_d",
        b"t_t", b"a_b", b"P", b"V", b"list", b"node", b"color", b"TRUE", b"FALSE", b"s_b_c", b"b_c"]
BASIC = list(rpclang.BASIC_TYPES)
EDGES = [0, 1, 2, 3, 4, 8, 255, 400, 2 ** 31 - 2, 2 ** 31 - 1, 2 ** 31, 2 ** 32 - 1, 2 ** 32, 2 ** 63 - 1, 2 ** 63,
         2 ** 64 - 1, 2 ** 64, -1, -2, -2 ** 31, -2 ** 31 - 1, -2 ** 63, -2 ** 63 - 1, -2 ** 64, 10 ** 30]
SPACES = [b" ", b" ", b" ", b" ", b"  ", b"\n", b"\t", b"\r\n", b"\v", b"\f", b"\n\n", b"\n ", b"/* note */", b"/**/",
          b"/***/", b"/* a\n;{ */", b"\n%line one\n", b"\n%#define Q 1\r\n", b"\n# 1 \"t.x\"\n", b"\n#\t12\n", b"\n%\n"]
SPOILS = [b"{", b"}", b"(", b")", b"[", b"]", b"<", b">", b",", b";", b":", b"=", b"*", b"/", b"-", b"%", b"#", b"@",
          b"\x00", b"\xff", b"\"", b"/*", b"*/", b"0x", b"018", b"-0", b"-5", b"12ab", b"0x1G", b"\n#define A\n",
          b"\n#\n", b"\n%p\n", b"case", b"void", b"struct", b"switch", b"default", b"int", b"unsigned", b"string",
          b"opaque", b"/*/", b"\n", b"99999999999999999999999", b"-0x1", b"a-1", b"5-3"]


class Maker:
    """Makes definitions as lists of words. `care` is how likely each choice keeps the rules."""

    def __init__(self, chance, care):
        self.chance = chance
        self.care = care
        self.constants = [(b"TRUE", 1), (b"FALSE", 0)]
        self.types = []             # pairs of name and tag, "typedef" among the tags
        self.enums = []             # pairs of name and numbers
        self.used = {b"TRUE", b"FALSE"}
        self.coming = chance.sample(POOL, 2)    # structs and unions to be defined
        self.used |= set(self.coming)
        self.lifted = []            # as types, those lifted from the definition in the making
        self.count = 0

    def careful(self):
        return self.chance.random() < self.care

    def pick(self, *choices):
        return self.chance.choice(choices)

    def any_name(self):
        """A name that may be of any kind, declared before, later or never."""
        if self.lifted and self.chance.random() < 0.3:
            return self.chance.choice(self.lifted)[0]
        return self.chance.choice(sorted(self.used) if self.chance.random() < 0.7 else POOL)

    def spelled(self, number):
        form = self.chance.random()
        if number < 0 or form < 0.6:
            return (b"%d" if number else b"0") % (number if number else ())
        if form < 0.8:
            return (b"0x%x" if form < 0.7 else b"0X%X") % number
        return b"0%o" % number if number else self.pick(b"0", b"00", b"0x0")

    def fresh(self):
        """A name for a new definition."""
        if not self.careful():
            return self.chance.choice(POOL)
        free = [name for name in POOL if name not in self.used]
        self.count += 1
        return self.chance.choice(free) if free and self.chance.random() < 0.8 else b"n%d" % self.count

    def own(self, name):
        self.used.add(name)
        return name

    def number(self, low, high):
        if not self.careful():
            return self.chance.choice(EDGES + [0] * 8)
        inside = [edge for edge in EDGES if low <= edge <= high]
        if self.chance.random() < 0.2:
            return self.chance.choice(inside)
        return self.chance.randint(low, min(high, low + 9))

    def value(self, low, high):
        """A value word and its number, None where it isn't known."""
        if self.chance.random() < 0.35:
            if not self.careful():
                return self.any_name(), None
            fitting = [pair for pair in self.constants if low <= pair[1] <= high]
            if fitting:
                return self.chance.choice(fitting)
        number = self.number(low, high)
        return self.spelled(number), number

    def size(self, form):
        if form == "counted" and self.chance.random() < 0.4:
            return []
        return [self.value(1 if form == "fixed" else 0, self.pick(20, 2 ** 32 - 1))[0]]

    def type(self, link, deep, around):
        choice = self.chance.random()
        if choice < 0.12 and deep < 3:
            return self.inline(deep + 1, around)
        if choice < 0.5 and self.types:
            if not self.careful():
                tag = self.pick([], [], [b"struct"], [b"union"], [b"enum"])
                return tag + [self.any_name()]
            name, tag = self.chance.choice(self.types)
            return ([tag] if tag != b"typedef" and self.chance.random() < 0.3 else []) + [name]
        if choice < 0.6 and self.coming and (link or not self.careful()):
            return [self.chance.choice(self.coming)]
        return self.chance.choice(BASIC).split()

    def inline(self, deep, around):
        kind = self.pick(self.enum_body, self.struct_body, self.union_body)
        tag = {"enum_body": b"enum", "struct_body": b"struct", "union_body": b"union"}[kind.__name__]
        words = [tag] + kind(deep, around)
        self.lifted.append((around, tag))
        return words

    def declaration(self, name, deep, around, void=False):
        if void and self.chance.random() < 0.3 or self.chance.random() < 0.05 * (1 - self.care):
            return [b"void"]
        inside = around + b"_" + name
        form = self.chance.random()
        if form < 0.5:
            return self.type(False, deep, inside) + [name]
        if form < 0.6:
            return self.type(False, deep, inside) + [name, b"["] + self.size("fixed") + [b"]"]
        if form < 0.7:
            return self.type(True, deep, inside) + [name, b"<"] + self.size("counted") + [b">"]
        if form < 0.8:
            return self.type(True, deep, inside) + [b"*", name]
        if form < 0.87:
            return [b"opaque", name, b"["] + self.size("fixed") + [b"]"]
        if form < 0.94:
            return [b"opaque", name, b"<"] + self.size("counted") + [b">"]
        return [b"string", name, b"<"] + self.size("counted") + [b">"]

    def names(self, count):
        """Names of fields, without repetition where there is care."""
        names = self.chance.sample(POOL[:20], count)
        return [self.chance.choice(POOL) if not self.careful() else name for name in names]

    def enum_body(self, deep, around):
        words, before, numbers = [b"{"], -1, []
        for k in range(self.chance.randint(1, 4)):
            name = self.own(self.fresh())
            words += [b","] * (k > 0) + [name]
            if (before is None or before >= 2 ** 31 - 1) and self.careful() or self.chance.random() < 0.6:
                value, before = self.value(-2 ** 31, 2 ** 31 - 1)
                words += [b"=", value]
            elif before is not None:
                before += 1
            if before is not None:
                self.constants.append((name, before))
                numbers.append(before)
        self.last_numbers = numbers or [0]
        return words + [b"}"]

    def struct_body(self, deep, around):
        words = [b"{"]
        for name in self.names(self.chance.randint(1, 4)):
            words += self.declaration(name, deep, around) + [b";"]
        return words + [b"}"]

    def union_body(self, deep, around):
        discriminant, default, *names = self.names(self.chance.randint(3, 6))
        choice = self.chance.random()
        if not self.careful():
            words, numbers = self.declaration(discriminant, deep, around, True), [0, 1, -1, 2 ** 31]
        elif choice < 0.3 and self.enums:
            name, numbers = self.chance.choice(self.enums)
            words = [name, discriminant]
        elif choice < 0.4:
            words = [b"enum"] + self.enum_body(deep, around) + [discriminant]
            self.lifted.append((around + b"_" + discriminant, b"enum"))
            numbers = self.last_numbers
        elif choice < 0.6:
            words, numbers = [b"bool", discriminant], [0, 1]
        elif choice < 0.8:
            words = self.pick([b"unsigned"], [b"unsigned", b"int"], [b"unsigned", b"long"]) + [discriminant]
            numbers = [0, 1, 2, 7, 2 ** 31, 2 ** 32 - 1]
        else:
            words, numbers = self.pick([b"int"], [b"long"]) + [discriminant], [-2 ** 31, -1, 0, 1, 5, 2 ** 31 - 1]
        words = [b"switch", b"("] + words + [b")", b"{"]
        left = list(dict.fromkeys(numbers))
        self.chance.shuffle(left)
        for k, name in enumerate(names):
            for case in range(self.pick(1, 1, 1, 2)):
                if not left and self.careful() and (k or case):
                    break
                number = left.pop() if left and self.careful() else self.chance.choice(EDGES)
                spelled = [name for name, of in self.constants if of == number] + [self.spelled(number)]
                words += [b"case", self.chance.choice(spelled) if self.careful() else self.any_name(), b":"]
            if words[-1] == b":":
                words += self.declaration(name, deep, around, True) + [b";"]
        if self.chance.random() < 0.4:
            words += [b"default", b":"] + self.declaration(default, deep, around, True) + [b";"]
        return words + [b"}"]

    def argument(self, first, alone):
        if first and self.chance.random() < (0.25 if alone or not self.careful() else 0):
            return [b"void"]
        if self.chance.random() < 0.1:
            return [b"string"]
        if not self.careful() and self.chance.random() < 0.3:
            return self.inline(2, b"argument")
        return self.type(False, 9, b"")

    def program(self, name):
        words = [b"program", name, b"{"]
        for version, version_name in enumerate(self.names(self.pick(1, 1, 2, 3))):
            words += [b"version", version_name, b"{"]
            for number, procedure in enumerate(self.names(self.pick(1, 2, 3))):
                count = self.pick(1, 1, 1, 2, 3)
                words += self.argument(True, True) + [procedure, b"("] + self.argument(True, count == 1)
                for k in range(1, count):
                    words += [b","] + self.argument(False, False)
                number = number if self.careful() else self.chance.choice(EDGES)
                words += [b")", b"=", self.spelled(number), b";"]
            version = version + 1 if self.careful() else self.chance.choice(EDGES + [1, 2, 3])
            words += [b"}", b"=", self.spelled(version), b";"]
        return words + [b"}", b"=", self.spelled(self.number(0, 2 ** 32 - 1)), b";"]

    def definition(self):
        words = self.one_definition()
        self.types += self.lifted
        self.enums += [(name, self.last_numbers) for name, tag in self.lifted[-1:] if tag == b"enum"]
        self.used |= {name for name, tag in self.lifted}
        self.lifted = []
        return words

    def one_definition(self):
        kind = self.pick(b"const", b"const", b"typedef", b"typedef", b"enum", b"struct", b"struct", b"union", b"union",
                         b"program")
        name = self.fresh()
        if kind in (b"struct", b"union") and self.coming and self.chance.random() < 0.6:
            name = self.coming.pop()
        self.used.add(name)
        if kind == b"const":
            value, number = self.value(-2 ** 63, 2 ** 64 - 1)
            if number is not None:
                self.constants.append((name, number))
            return [kind, name, b"=", value, b";"]
        if kind == b"typedef":
            words = self.declaration(name, 0, name)
            self.types.append((name, b"typedef"))
            return [kind] + words + [b";"]
        if kind == b"program":
            return self.program(name)
        body = {b"enum": self.enum_body, b"struct": self.struct_body, b"union": self.union_body}[kind](0, name)
        self.types.append((name, kind))
        if kind == b"enum":
            self.enums.append((name, self.last_numbers))
        return [kind, name] + body + [b";"]

    def chain(self):
        """Types one over the other up to the greatest height, and then some that may pass it, also inside alone."""
        top = self.chance.randint(28, 33)
        words = self.pick([b"struct", b"h1", b"{", b"int", b"a", b";", b"}", b";"], [b"typedef", b"int", b"h1", b";"],
                          [b"enum", b"h1", b"{", b"H", b"}", b";"])
        for k in range(2, top + 1):
            under, name = b"h%d" % (k - 1), b"h%d" % k
            link = [b"*"] if self.chance.random() < 0.01 else []
            words += self.pick([b"struct", name, b"{", under] + link + [b"a", b";", b"}", b";"],
                               [b"typedef", under] + link + [name, b";"],
                               [b"typedef", under, name, b"[", b"2", b"]", b";"],
                               [b"union", name, b"switch", b"(", b"int", b"d", b")", b"{", b"case", b"1", b":", under]
                               + link + [b"a", b";", b"}", b";"])
        for name in [b"k1", b"k2", b"k3"]:
            inside = [b"h%d" % top] + self.pick([b"a"], [b"*", b"a"], [b"a", b"<", b">"], [b"a", b"[", b"1", b"]"])
            for _ in range(self.chance.randint(0, 4)):
                inside = [b"struct", b"{"] + inside + [b";", b"}"]
                inside += self.pick([b"b"], [b"b"], [b"*", b"b"], [b"b", b"<", b">"])
            words += self.pick([b"struct", name, b"{"] + inside + [b";", b"}", b";"], [b"typedef"] + inside + [b";"])
        return words

    def nest(self):
        """Inline types inside one another, up to and past the greatest number."""
        count = self.chance.randint(29, 34)
        words = [b"struct", self.fresh(), b"{"]
        closers = [[b"}", b";"]]
        for k in range(count):
            name = [b"q%d" % k]
            name = self.pick(name, name, name, [b"*"] + name, name + [b"<", b">"], name + [b"[", b"2", b"]"])
            union = self.chance.random()
            if union < 0.2:
                words += [b"union", b"switch", b"(", b"int", b"z", b")", b"{", b"case", b"1", b":"]
                closers.append([b"}"] + name + [b";"])
            elif union < 0.25:
                words += [b"union", b"switch", b"("]
                closers.append([b"z", b")", b"{", b"case", b"1", b":", b"void", b";", b"}"] + name + [b";"])
                words += [b"struct", b"{"]
                closers.append([b"}"])
            else:
                words += [b"struct", b"{"]
                closers.append([b"}"] + name + [b";"])
        words += self.pick([b"int", b"a", b";"], [b"enum", b"{", b"Z1", b"}", b"a", b";"], [b"union", b"a", b"b", b";"])
        for closer in reversed(closers[:self.pick(len(closers), len(closers), len(closers) - 1)]):
            words += closer
        return words


class Crowd:
    """Makes definitions of very few names and numbers, without care, so that much meets that seldom does."""

    def __init__(self, chance):
        self.chance = chance
        edges = [b"2147483647", b"2147483647", b"2147483648", b"-2147483648", b"-2147483649", b"4294967295",
                 b"4294967296", b"99999999999999999999999", b"99999999999999999999999", b"-1", b"7"]
        self.numbers = [b"0", b"1"] + chance.sample(edges, 2)

    def pick(self, *choices):
        return self.chance.choice(choices)

    def name(self):
        return self.pick(b"a", b"a", b"b", b"b", b"a_a", b"a_b", b"b_a", b"a_b_a")

    def value(self):
        return self.chance.choice(self.numbers + [b"A", b"A", b"B", b"B", b"C", b"TRUE", self.name()])

    def many(self, most, read):
        return [word for _ in range(self.chance.randint(1, most)) for word in read()]

    def enum(self):
        words = [b"{"]
        for name in self.chance.sample([b"A", b"B", b"C", b"D", b"E", self.name()], self.chance.randint(1, 5)):
            words += [name] + self.pick([], [b"=", self.value()]) + [b","]
        return words[:-1] + [b"}"]

    def struct(self, deep):
        return [b"{"] + self.many(3, lambda: self.declaration(deep) + [b";"]) + [b"}"]

    def case(self):
        return [b"case", self.value(), b":"]

    def pair(self):
        """An enum, and a union over an enum whose numbers come from the first."""
        first = [b"enum", b"{", b"A", b"=", self.chance.choice(self.numbers)] + self.pick([], [b",", b"B"]) + [b"}"]
        second = [b"enum", b"{", b"C", b"=", self.pick(b"A", b"B")] + self.pick([], [b",", b"D"]) + [b"}"]
        cases = self.many(3, self.case)
        return [b"{"] + first + [b"x", b";", b"union", b"switch", b"("] + second + [b"d", b")", b"{"] + cases + [
            b"void", b";", b"}", b"y", b";", b"}"]

    def union(self, deep):
        kind = self.pick(b"int", b"bool", b"unsigned", b"enum", b"enum", b"enum", self.name(), None)
        switch = [kind] + (self.enum() if kind == b"enum" else []) + [b"d"] if kind else self.declaration(deep)
        words = [b"switch", b"("] + switch + [b")", b"{"]
        words += self.many(3, lambda: self.many(2, self.case) + self.declaration(deep) + [b";"])
        return words + ([b"default", b":"] + self.declaration(deep) + [b";"] if self.pick(True, False) else []) + [b"}"]

    def type(self, deep):
        tag = self.pick(b"struct", b"union", b"enum")
        if self.chance.random() < 0.6 or deep > 2 and tag != b"enum":
            return self.pick([b"int"], [b"bool"], [self.name()], [self.name()], [tag, self.name()])
        return [tag] + (self.enum() if tag == b"enum" else getattr(self, tag.decode())(deep + 1))

    def declaration(self, deep):
        name, way = [self.name()], self.chance.random()
        if way < 0.2:
            return self.pick([b"void"], [b"opaque", b"a", b"[", self.value(), b"]"], [b"string", b"a", b"<", b">"])
        return self.type(deep) + self.pick(*[name] * 4, [b"*"] + name, [b"*"] + name, name + [b"<", b">"],
                                           name + [b"<", self.value(), b">"], name + [b"[", self.value(), b"]"])

    def procedure(self):
        words = self.type(2) + [self.name(), b"("] + self.pick(self.type(2), [b"void"])
        return words + self.pick([], [b","] + self.type(2)) + [b")", b"=", self.chance.choice(self.numbers), b";"]

    def version(self):
        procedures = self.many(3, self.procedure)
        return [b"version", self.name(), b"{"] + procedures + [b"}", b"=", self.chance.choice(self.numbers), b";"]

    def definition(self):
        kind, name = self.pick(b"const", b"typedef", b"enum", b"struct", b"struct", b"union", b"program"), self.name()
        if kind == b"const":
            words = [self.pick(b"A", b"B", name), b"=", self.value()]
        elif kind == b"typedef":
            words = self.declaration(0)
        elif kind == b"enum":
            words = [name] + self.enum()
        elif kind == b"program":
            words = [name, b"{"] + self.many(3, self.version) + [b"}", b"=", self.chance.choice(self.numbers)]
        elif kind == b"struct" and self.chance.random() < 0.2:
            words = [name] + self.pair()
        else:
            words = [name] + getattr(self, kind.decode())(0)
        return [kind] + words + [b";"]


def join(chance, words):
    """A text of the words: mostly one blank between them, sometimes a comment, a line of its own or nothing."""
    text = chance.choice([b"", b"", b"", b"%first\n", b"# 1 \"t.x\"\n", b"\n", b"/* head */"])
    for word in words:
        tight = chance.random() < 0.3 and not (text[-1:].isalnum() or text[-1:] == b"_") or word[:1] in b"(){}[]<>,;:=*"
        tight = tight and chance.random() < 0.7
        if text and not tight:
            text += b" " if chance.random() < 0.8 else chance.choice(SPACES)
        text += word
    return text + chance.choice([b"", b"", b"\n", b"\n%last", b" /* tail */", b"\n%last\n"])


def spoil(chance, words):
    """Some words dropped, doubled, swapped, replaced, or braces taken out."""
    words = list(words)
    for _ in range(chance.choice([1, 1, 1, 2, 3])):
        at = chance.randrange(len(words))
        way = chance.random()
        if way < 0.25:
            del words[at]
        elif way < 0.4:
            words.insert(at, words[at])
        elif way < 0.5:
            other = chance.randrange(len(words))
            words[at], words[other] = words[other], words[at]
        elif way < 0.75:
            words[at] = chance.choice(SPOILS)
        elif way < 0.9:
            words.insert(at, chance.choice(SPOILS))
        else:
            braces = [k for k, word in enumerate(words) if word in (b"{", b"}")]
            if braces:
                del words[chance.choice(braces)]
        if not words:
            words = [b";"]
    return words


def random_words(chance, care):
    if care < 1 and chance.random() < 0.25:
        return Crowd(chance).many(4, Crowd(chance).definition)
    maker = Maker(chance, care)
    words = []
    for _ in range(chance.choice([1, 1, 2, 2, 3, 3, 4, 5, 6])):
        words += maker.definition()
    while maker.coming and chance.random() < 0.2 + 0.8 * care:
        words += [b"struct", maker.coming.pop()] + maker.struct_body(0, b"later") + [b";"]
    special = chance.random()
    if special < 0.03:
        words += maker.chain()
    elif special < 0.06:
        words += maker.nest()
    return words


def soup(chance):
    """Pieces of words and spaces in any order."""
    return b"".join(chance.choice(SPOILS + SPACES + POOL + BASIC) for _ in range(chance.randint(0, 25)))


def random_text(chance, care=None, spoiled=None):
    if spoiled is None and chance.random() < 0.06:
        return soup(chance)
    if spoiled is None:
        spoiled = chance.random() < 0.35
    words = random_words(chance, chance.choice([0.7, 0.9, 0.97, 1, 1]) if care is None else care)
    if spoiled:
        words = spoil(chance, words)
    text = join(chance, words)
    if spoiled and chance.random() < 0.15:
        at = chance.randrange(len(text) + 1)
        text = text[:at] + bytes(chance.randrange(256) for _ in range(chance.randint(1, 3))) + text[at:]
    if spoiled and chance.random() < 0.03:
        text = chance.choice([text + b"/* ", text.replace(b"*/", b"", 1), b"/*/" + text, text + b"/*"])
    if spoiled and chance.random() < 0.1:
        text = text[:chance.randrange(len(text) + 1)]
    return text


def random_edit(chance, text):
    """A byte range, which may lie outside the text, and what comes into its place."""
    way = chance.random()
    if way < 0.03:
        size = len(text)
        return chance.choice([(size, size + 1), (5, 4), (size + 3, size + 3), (999999999, 0)]) + (b"",)
    start = chance.randrange(len(text) + 1)
    if chance.random() < 0.15:
        feeds = [k + 1 for k, byte in enumerate(text) if byte == 10] + [0]
        start = chance.choice(feeds)
    end = min(len(text), start + chance.choice([0, 0, 0, 1, 1, 2, 3, 8, 40]))
    if chance.random() < 0.05:
        end = len(text)
    if way < 0.2:
        insert = b""
    elif way < 0.5:
        insert = chance.choice(SPOILS + SPACES)
    elif way < 0.65:
        insert = chance.choice(POOL + BASIC)
    elif way < 0.75:
        insert = b"%d" % chance.choice(EDGES)
    elif way < 0.77:
        insert = soup(chance)
    elif way < 0.8:
        insert = text[start:end]
    else:
        insert = join(chance, random_words(chance, chance.choice([0.7, 1])))
    return start, end, insert


def is_faultless(text):
    return not rpclang.Compilation(text).faults


def faultless_text(chance):
    while True:
        text = random_text(chance, 1, False)
        if is_faultless(text):
            return text


def some_definitions(chance, text):
    """A text of one or two definitions whose names are not in this one."""
    maker = Maker(chance, 1)
    maker.used |= {token.text for token in rpclang.tokens_of(text)}
    maker.coming, maker.count = [], chance.randint(100, 10 ** 6)
    return join(chance, [word for _ in range(chance.choice([1, 1, 2])) for word in maker.definition()])


def likely_edit(chance, text):
    """An edit at whole tokens or items, which leaves many a text without a fault."""
    tokens = rpclang.tokens_of(text)
    ends = [0] + [item[-1].end for item in rpclang.items_of(tokens) if item]
    way = chance.random()
    if way < 0.35 or not tokens:
        at = chance.choice(ends)
        return at, at, some_definitions(chance, text)
    if way < 0.55:
        first = chance.randrange(len(ends))
        return ends[first], ends[min(len(ends) - 1, first + chance.choice([1, 1, 2]))], b""
    token = chance.choice(tokens)
    if way < 0.75:
        return token.start, token.start, chance.choice(SPACES)
    numbers = [token for token in tokens if token.kind == "Number"] or [token]
    if way < 0.9:
        token = chance.choice(numbers)
        return token.start, token.end, Maker(chance, 1).spelled(chance.randint(0, 12))
    same = [other for other in tokens if other.kind == token.kind]
    return token.start, token.end, chance.choice(same).text


def faultless_edit(chance, text):
    """One that leaves the text without a fault."""
    while True:
        start, end, insert = likely_edit(chance, text)
        if is_faultless(text[:start] + insert + text[end:]):
            return start, end, insert


def case_of(seed, first_text, next_edit):
    """A text and a list of edits."""
    chance = random.Random(seed)
    text = first = first_text(chance)
    edits = []
    for _ in range(chance.choice([0, 1, 1, 2, 3])):
        start, end, insert = next_edit(chance, text)
        edits.append((start, end, insert))
        if start <= end <= len(text):
            text = text[:start] + insert + text[end:]
    return first, edits


def random_case(seed):
    return case_of(seed, random_text, random_edit)


def faultless_case(seed):
    """One in which no text has a fault, the first one or after an edit."""
    return case_of(seed, faultless_text, faultless_edit)


def line_of(edit):
    """The line of a script that asks for an edit."""
    start, end, insert = edit
    return b"edit %d %d" % (start, end) + (b" " + insert.hex().encode() if insert else b"")


def is_taken(text, edit):
    """Whether the range of an edit lies within the text."""
    return edit[0] <= edit[1] <= len(text)


def edited(text, edit):
    """The text that an edit leaves, which is the same one where its range lies outside."""
    start, end, insert = edit
    return text[:start] + insert + text[end:] if is_taken(text, edit) else text


def edit_behind(chance, text, last):
    """An edit after the last one, which is given with the text before it: one that takes it back, a byte typed behind
    what it put in, or any other."""
    way = chance.random()
    if last and way < 0.3:
        before, (start, end, insert) = last
        behind = start + len(insert)
        if way < 0.15:
            return start, behind, before[start:end]
        return behind, behind, bytes([chance.choice(b"a1 ;{}\n*/%")])
    return (likely_edit if way < 0.6 else random_edit)(chance, text)


def long_case(seed):
    """A text of several, and a longer list of edits."""
    chance = random.Random(f"long {seed}")
    text = first = b"".join(random_text(chance) for _ in range(chance.choice([1, 1, 2, 3, 5])))
    edits, last = [], None
    for _ in range(chance.randint(1, 12)):
        edit = edit_behind(chance, text, last)
        edits.append(edit)
        if is_taken(text, edit):
            text, last = edited(text, edit), (text, edit)
    return first, edits


def random_line(chance):
    """A script line that is nearly one of those that are answered."""
    line = chance.choice(rpcedit.QUESTIONS + [
        b"edit 0 1", b"edit 0 0 2f2A", b"edit 123456789 0", b"edit 1 2 0", b"edit", b"edit 0000000001 0", b"edit -1 0",
        b"edit 0x1 2", b"%tokens"])
    for _ in range(chance.choice([1, 1, 2])):
        at = chance.randrange(len(line) + 1)
        piece = chance.choice([b" ", b"\t", b"\r", b"\0", b"0", b"a", b"G", b"\xff", line[at:at + 1]])
        line = chance.choice([line[:at] + piece + line[at:], line[:at] + line[at + 1:] or b" ", line.upper(),
                              line + piece])
    return line


def show_codes(count, seed):
    texts, faults, clean = {}, {}, 0
    for k in range(count):
        compilation = rpclang.Compilation(random_case(f"{seed}/{k}")[0])
        codes = [fault.code for fault in compilation.faults]
        clean += not codes
        for code in codes:
            faults[code] = faults.get(code, 0) + 1
        for code in set(codes):
            texts[code] = texts.get(code, 0) + 1
    print(f"{count} texts, {clean} without a fault")
    print("code name             faults  texts")
    for code, name in rpclang.CODE_NAMES.items():
        print(f"{code:4} {name:16} {faults.get(code, 0):6} {texts.get(code, 0):6}")


def forms_in(definition):
    """The forms that stand in a definition."""
    yield rpclang.KEYWORD_OF[type(definition)]
    if isinstance(definition, rpclang.Program):
        yield f"program: {len(definition.versions)} versions"
        for procedure in (procedure for version in definition.versions for procedure in version.procedures):
            yield f"procedure: {len(procedure.arguments)} arguments"
            yield f"result: {procedure.result.basic or 'name'}"
            yield from (f"argument: {kind.basic or 'name'}" for kind in procedure.arguments)
    for part in rpclang.parts_of(definition):
        if part.lifted:
            yield f"inline {rpclang.shape_of(part.body)}"
        if isinstance(part.body, rpclang.EnumBody):
            yield from ("enumerator: " + ("a value" if value else "none") for _, value in part.body.enumerators)
        if isinstance(part.body, rpclang.UnionBody):
            yield "union: " + ("a default arm" if part.body.default else "no default arm")
            yield from (f"union arm: {len(arm.values)} cases, {arm.declaration.form}" for arm in part.body.arms)
        for declaration in rpclang.declarations_in(part.body):
            unsized = declaration.form in ("counted", "opaque counted", "string") and not declaration.size
            yield f"declaration: {declaration.form}" + (" without a size" if unsized else "")
            if declaration.type:
                kind = declaration.type
                yield f"type: {kind.basic or ('inline' if kind.body else kind.tag or 'name')}"


def show_forms(count, seed):
    counts, sizes = collections.Counter(), []
    for k in range(count):
        compilation = rpclang.Compilation(faultless_case(f"{seed}/{k}")[0])
        sizes.append(len(compilation.items))
        counts["percent line"] += sum(token.kind == "Percent" for token in compilation.tokens)
        counts.update(form for definition in compilation.definitions if definition for form in forms_in(definition))
    print(f"{count} texts without a fault, of {sum(sizes) / count:.1f} items each")
    for form, often in sorted(counts.items()):
        print(f"{often:6} {form}")


def main(words):
    show = show_codes
    if words[:1] == ["--faultless"]:
        show, words = show_forms, words[1:]
    show(int(words[0]), words[1])


if __name__ == "__main__":
    main(sys.argv[1:])
