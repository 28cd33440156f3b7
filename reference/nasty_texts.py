#!/usr/bin/env python3
"""Short texts made to be nasty, with long lists of edits that keep them so, from a seed.

    nasty_texts.py EDITS SEED   prints how often each kind of token and each fault code comes up after an edit

A text is made of a few pieces: one name used everywhere, deep braces, comments that do not close, lines with
% and #, bytes outside ASCII, numbers at every limit, words that are nearly keywords, items without their
semicolon, lifted names that collide, enums with unions and typedefs over them, types one over the other up to
a height of 33, programs with repeated numbers. Edits are of one byte and of large pieces, at places of
tokens, lines and items and anywhere; some change nothing, some lie outside the text, and many are taken back.
"""
import collections
import random
import sys

sys.dont_write_bytecode = True

import random_texts
import rpclang

NAMES = b"a b e s t u A B N a_b s_a s_a_b u_d t_t TRUE FALSE".split()
# At and beside the limits of enums, of sizes, of constants, and beyond; and spelled otherwise.
NUMBERS = (b"0 1 2 3 -1 -2 2147483646 2147483647 2147483648 -2147483648 -2147483649 0x7fffffff 0X80000000 "
           b"4294967295 4294967296 0xffffffff 0x100000000 -4294967296 9223372036854775807 9223372036854775808 "
           b"-9223372036854775808 -9223372036854775809 18446744073709551615 18446744073709551616 "
           b"0xffffffffffffffff 0x10000000000000000 01777777777777777777777 02000000000000000000000 00 007 0x0 "
           b"999999999999999999999999999999").split()
ODD_NUMBERS = b"-0 0x 08 1a 0x1G -0x1 -01 1_ 0b1".split()
SIZES = b"1 2 3 0 4294967295 4294967296 -1 A B N TRUE FALSE a".split()
HALVES = [word[:k] for word in sorted(rpclang.KEYWORDS) for k in range(1, len(word))]
SINGLES = [bytes([byte]) for byte in b"{}{};;()[]<>,:=*/%#\n\n\r \t-0158xaAe_@\"'\\\0\x7f\x80\xc3\xff"]
SMALL = [b"/*", b"*/", b"/**/", b"/*/", b"//", b"\n%", b"\n#", b"\n# 1", b"\r\n", b"\n\n", b"};", b"{}", b"{{",
         b"}}", b"; ", b"case ", b"default:", b"void", b"struct ", b"enum ", b"union ", b"switch", b"typedef ",
         b"const ", b"\xc3\xa9", b"=0", b"=2147483647", b",A", b"<>", b"[1]", b"[0]", b"*", b" a", b"a;"]
SPACES = [b" ", b" ", b" ", b"\n", b"\r\n", b"\t", b"\v", b"/**/", b"/*;*/", b"\n%l\n", b"\n# 1\n"]
LONGEST = 1500
SHORTEST = 50


class Nasty:
    """Makes pieces of text. Of most texts each piece is made of definitions, some of which may be broken off."""

    def __init__(self, chance):
        self.chance = chance
        self.pieces = [self.everywhere, self.limits, self.lifted, self.classes, self.definitions] * 2
        self.pieces += [self.tower, self.programs, self.braces]
        if chance.random() < 0.4:
            self.pieces += [self.comments, self.lines, self.odd_bytes, self.halves, self.unended] * 2

    def pick(self, *choices):
        return self.chance.choice(choices)

    def name(self):
        return self.chance.choice(NAMES)

    def number(self):
        return self.chance.choice(NUMBERS if self.chance.random() < 0.9 else ODD_NUMBERS)

    def value(self):
        return self.chance.choice(SIZES) if self.chance.random() < 0.7 else self.number()

    def type(self):
        basic = self.chance.choice(random_texts.BASIC)
        return self.pick(basic, self.name(), self.name(), b"struct " + self.name(), b"enum " + self.name())

    def declaration(self, name):
        kind, value = self.type(), self.value()
        form = self.pick(b"%(kind)s %(name)s", b"%(kind)s %(name)s", b"%(kind)s *%(name)s", b"void",
                         b"%(kind)s %(name)s<%(value)s>", b"%(kind)s %(name)s<>", b"%(kind)s %(name)s[%(value)s]",
                         b"opaque %(name)s[%(value)s]", b"opaque %(name)s<%(value)s>", b"string %(name)s<>")
        return form % {b"kind": kind, b"name": name, b"value": value}

    def some(self, least, most, make):
        return [make(k) for k in range(self.chance.randint(least, most))]

    def everywhere(self):
        """One name in every place that a name may have."""
        name = self.name()
        forms = [b"const %s = %s;", b"typedef %s %s;", b"struct %s { %s *a; };", b"enum %s { A = %s };",
                 b"typedef int %s[%s];", b"struct s { %s %s; };", b"enum e { %s, B = %s };",
                 b"union u switch (%s d) { case %s: void; };", b"struct %s { struct { int i; } %s; };",
                 b"union u switch (int %s) { case 1: %s x; };",
                 b"program %s { version V { %s F(void) = 1; } = 1; } = 1;",
                 b"program P { version %s { void %s(void) = 1; } = 1; } = 1;"]
        return b"".join(self.chance.choice(forms) % self.pick((name, name), (name, name), (name, self.name()))
                        for _ in range(self.chance.randint(2, 7)))

    def braces(self):
        """Inline types inside one another, up to and past the most; or braces alone."""
        deep = self.pick(1, 2, 3, 8, 31, 32, 32, 33)
        opening, closing = self.pick((b"struct{", b"}b;"), (b"struct{", b"}*b;"), (b"struct{int b;", b"}a;"),
                                     (b"union switch(int d){case 1:", b"}a;"), (b"{", b"}"), (b"{", b"};"))
        inside = self.pick(b"int i;", b"s *i;", b"enum{A}a;", b"")
        closers = self.pick(deep, deep, deep, deep - 1, deep + 1)
        return b"struct s{" + opening * deep + inside + closing * closers + b"};"

    def comments(self):
        return b"".join(self.some(1, 6, lambda k: self.pick(
            b"/*", b"*/", b"/*/", b"/**/", b"/***/", b"/* ; */", b"a", b";", b"\n")))

    def lines(self):
        """Lines that begin with % or #, or nearly."""
        starts = [b"%", b"#", b"# 1", b"#1", b"#\t", b" %", b" #", b"%%", b"#define ", b"%/*", b"#/*", b"%*/"]
        ends = [b"\n", b"\r\n", b"\r", b"\n\n", b"\n ", b""]
        return b"\n" + b"".join(self.some(1, 6, lambda k: (
            self.chance.choice(starts) + self.pick(b"", b"a", b"1;{") + self.chance.choice(ends))))

    def odd_bytes(self):
        return b"".join(self.some(1, 6, lambda k: self.pick(
            b"\xff", b"\x80", b"\0", b"\xc3\xa9", b"\xe2\x82\xac", b"\xef\xbb\xbf", b"\x1b", b"\x7f", b"\x85", b"a",
            b"1", b";")))

    def limits(self):
        """Numbers at the limits of where they stand."""
        number, other = self.number(), self.number()
        return self.pick(b"const N = %s;" % number, b"enum e { A = %s, B, N = %s };" % (number, other),
                         b"enum e { A = %s, B = A, N };" % number, b"typedef opaque t[%s];" % number,
                         b"typedef int t<%s>;" % number, b"const A = %s; enum e { B = A };" % number,
                         b"union u switch (%s d) { case %s: case %s: void; };" % (
                             self.pick(b"int", b"unsigned", b"bool", b"e"), number, other),
                         b"const A=%s;typedef int t[A];typedef string b<A>;" % number)

    def halves(self):
        """Words that are keywords but for an end, or for a blank."""
        def one(k):
            half, keyword = self.chance.choice(HALVES), self.chance.choice(rpclang.KEYWORDS)
            return self.pick(half, half + b";", keyword + b"x", b"typedef " + half + b" t;", b"un signed a;")
        return b" ".join(self.some(1, 5, one))

    def unended(self):
        """Items of which some have no semicolon."""
        return b"".join(self.some(1, 5, lambda k: self.pick(
            b"const A = 1", b"typedef int t", b"enum e { A }", b"struct s { int a }", b"struct s { int a; }",
            b"union u", b"") + self.pick(b";", b";", b"", b";;", b" ", b"\n")))

    def lifted(self):
        """Names of inline types that others have too."""
        pieces = [b"struct s{struct{struct{int i;}b;}a;struct{int j;}a_b;};", b"struct s_a{int x;};",
                  b"enum s_a{A};", b"const s_a_b=1;", b"typedef s_a *t;", b"typedef struct{int i;}t;",
                  b"typedef t_t u;", b"typedef enum{t=1}t;",
                  b"union u switch(enum{A,B}d){case A:struct{int i;}a;};", b"struct b{u_d x;u_a y;s_a_b z;};",
                  b"struct s{enum{A=3}a;int v[A];};", b"struct s{s_a *n;struct{s_a *m;}a;};",
                  b"struct a{struct{int b;}b;a_b *c;};"]
        return b"".join(self.chance.sample(pieces, self.chance.randint(1, 5)))

    def classes(self):
        """An enum, typedefs of it, and unions over them, whose cases it may lose."""
        numbers = self.some(1, 4, lambda k: b"%s%s" % (b"ABCD"[k:k + 1], self.pick(
            b"", b"", b"=%d" % self.chance.randint(0, 4), b"=" + self.number())))
        text = b"enum e{%s};" % b",".join(numbers)
        over = b"e"
        for name in self.pick([], [b"t"], [b"t", b"t2"]):
            text += b"typedef %s %s;" % (over, name)
            over = name
        form = b"union u%s switch(%s d){case %s:int x;case %s:void;%s};"
        return text + b"".join(self.some(1, 3, lambda k: form % (
            self.pick(b"", b"%d" % k), self.pick(over, over, b"e", b"bool"), self.pick(b"A", b"B", b"0"),
            self.pick(b"B", b"C", b"1", b"4"), self.pick(b"", b"default:void;"))))

    def tower(self):
        """Types one over the other, or constants of one another, up to a height of 33."""
        top = self.pick(3, 8, 31, 32, 32, 33, 33)
        first, form, over = self.pick(
            (b"struct h1{int a;};", b"struct h%(own)d{h%(under)d a;};", b"struct k{h%d a;};"),
            (b"struct h1{int a;};", b"struct h%(own)d{h%(under)d a[2];};", b"struct k{struct{h%d a;}a;};"),
            (b"typedef int h1;", b"typedef h%(under)d h%(own)d;", b"union u switch(h%d d){case 1:void;};"),
            (b"enum h1{A,B};", b"typedef h%(under)d h%(own)d;", b"union u switch(h%d d){case B:void;};"),
            (b"const h1=1;", b"const h%(own)d=h%(under)d;", b"typedef int t[h%d];"))
        steps = [form % {b"own": k, b"under": k - 1} for k in range(2, top + 1)]
        return first + b"".join(steps) + over % self.pick(top, top, top - 1, 1)

    def programs(self):
        """Numbers and names of versions and procedures that come again."""
        def procedure(k):
            result, name = self.pick(b"void", b"int", b"string", self.name()), self.pick(b"F", b"F%d" % k)
            arguments = self.pick(b"void", b"int", b"int,e", b"void,int", b"string,string", b"struct{int i;}", result)
            return b"%s %s(%s)=%s;" % (result, name, arguments, self.pick(b"1", b"%d" % k, self.number()))

        def version(k):
            return b"version V%s{%s}=%s;" % (self.pick(b"", b"%d" % k), b"".join(self.some(1, 3, procedure)),
                                             self.pick(b"1", b"%d" % k, self.number()))
        return b"program %s{%s}=%s;" % (self.pick(b"P", self.name()), b"".join(self.some(1, 3, version)),
                                        self.pick(b"1", b"7", self.number()))

    def definitions(self):
        """Some of any kind, of few names."""
        def one(k):
            name = self.name()
            names = self.chance.sample(NAMES[:8], self.chance.randint(1, 3))
            fields = b"".join(self.declaration(field) + b";" for field in names)
            arms = self.declaration(b"x"), self.declaration(b"y")
            return self.pick(
                b"const %s = %s;" % (name, self.value()), b"typedef %s;" % self.declaration(name),
                b"struct %s {%s};" % (name, fields),
                b"enum %s {%s, %s = %s};" % (name, self.name(), self.name(), self.value()),
                b"union %s switch (%s d) {case %s: %s; default: %s;};" % (name, self.type(), self.value(), *arms))
        return b"".join(self.some(1, 5, one))

    def piece(self):
        return self.chance.choice(self.pieces)()

    def text(self):
        """At least so many bytes, and mostly not more than the most."""
        most, text = self.pick(100, 300, 300, 600, LONGEST), b""
        while len(text) < SHORTEST or len(text) < most and self.chance.random() < 0.85:
            text += self.piece() + self.chance.choice(SPACES)
        return text[:LONGEST + 500]


class Editor:
    """Makes one edit of a text after another, and keeps what takes its edits back."""

    def __init__(self, chance, nasty):
        self.chance = chance
        self.nasty = nasty
        self.backs = []
        # How likely an edit is taken back: where it is more than an edit, the text stays near the first one.
        self.back = chance.choice([0.3, 0.4, 0.48])

    def place(self, text, tokens):
        """A place of the text: mostly where a token, a line or an item begins or ends."""
        way = self.chance.random()
        if way < 0.45 and tokens:
            token = self.chance.choice(tokens)
            return self.chance.choice([token.start, token.end])
        if way < 0.6:
            feed = text.find(b"\n", self.chance.randrange(len(text) + 1))
            return feed + 1 if feed >= 0 else 0
        if way < 0.7:
            end = text.find(b";", self.chance.randrange(len(text) + 1))
            return end + 1 if end >= 0 else len(text)
        if way < 0.8:
            return self.chance.choice([0, 0, len(text), len(text)])
        return self.chance.randrange(len(text) + 1)

    def insert(self, text, tokens):
        """What an edit puts in."""
        way = self.chance.random()
        if way < 0.35:
            return self.chance.choice(SINGLES)
        if way < 0.55:
            return self.chance.choice(SMALL)
        if way < 0.65:
            return self.chance.choice(NAMES)
        if way < 0.75:
            return self.nasty.number()
        if way < 0.9 and tokens:
            return self.chance.choice(tokens).text[:200]
        start = self.chance.randrange(len(text) + 1)
        return self.chance.choice([self.nasty.piece(), self.chance.choice(HALVES), text[start:start + 60]])

    def at_word(self, tokens):
        """A keyword or name cut or lengthened, or a number changed."""
        kinds = "Keyword", "Name", "Number", "BadNumber"
        words = [token for token in tokens if token.kind in kinds] or tokens
        token = self.chance.choice(words)
        way = self.chance.random()
        if way < 0.25:
            return token.end - 1, token.end, b""
        if way < 0.5:
            return token.end, token.end, self.chance.choice([b"x", b"0", b"1", b"8", b"_", b"-", b"\x80"])
        if way < 0.6:
            return token.start, token.start, self.chance.choice([b"-", b"0", b"0x", b"_", b"\n", b"1"])
        other = self.nasty.number() if token.kind == "Number" else self.chance.choice(words).text
        return token.start, token.end, other

    def large(self, text):
        """Much less, much more, or much otherwise."""
        start, end = sorted([self.chance.randrange(len(text) + 1), self.chance.randrange(len(text) + 1)])
        middle = (start + end) // 2
        swapped = text[middle:end] + text[start:middle]
        return self.chance.choice([
            (start, end, b""), (start, len(text), b""), (0, start, b""), (start, end, swapped),
            (start, start, self.nasty.piece()), (end, end, text[start:end][:400]), (0, len(text), text),
            (start, end, text[start:end])])

    def any_edit(self, text):
        tokens = rpclang.tokens_of(text)
        way = self.chance.random()
        if len(text) > LONGEST:
            start = self.place(text, tokens)
            return start, min(len(text), start + self.chance.choice([100, 400, 800])), b""
        if len(text) < SHORTEST and way < 0.7:
            start = self.place(text, tokens)
            return start, start, self.nasty.piece()
        if way < 0.02:
            size = len(text)
            outside = [(size, size + 1), (1, 0), (size + 1, size + 1), (0, 999999999), (999999999, 0)]
            return self.chance.choice(outside) + (b"",)
        if way < 0.08:
            start = self.place(text, tokens)
            return start, start, b""
        if way < 0.14:
            return self.large(text)
        if way < 0.34 and tokens:
            return self.at_word(tokens)
        start = self.place(text, tokens)
        if way < 0.62:
            return start, start, self.insert(text, tokens)
        if way < 0.7 and tokens:
            token = self.chance.choice(tokens)
            start, end = token.start, token.end
        else:
            end = min(len(text), start + self.chance.choice([1, 1, 1, 1, 2, 3, 8, 40]))
        return start, end, b"" if way > 0.84 else self.insert(text, tokens)

    def edit(self, text):
        """The next edit: often the one that takes the last one back."""
        if self.backs and self.chance.random() < self.back:
            return self.backs.pop()
        start, end, insert = self.any_edit(text)
        if start <= end <= len(text):
            self.backs.append((start, start + len(insert), text[start:end]))
        return start, end, insert


def nasty_case(seed):
    """A text and a list of edits."""
    chance = random.Random(f"nasty {seed}")
    nasty = Nasty(chance)
    text = first = nasty.text()
    editor, edits = Editor(chance, nasty), []
    for _ in range(chance.randint(20, 200)):
        edit = editor.edit(text)
        edits.append(edit)
        text = random_texts.edited(text, edit)
    return first, edits


def main(words):
    count, seed = int(words[0]), words[1]
    kinds, codes, sizes, case, sound = collections.Counter(), collections.Counter(), [], 0, 0
    while len(sizes) < count:
        text, edits = nasty_case(f"{seed}/{case}")
        case += 1
        for edit in edits:
            text = random_texts.edited(text, edit)
            compilation = rpclang.Compilation(text)
            sizes.append(len(text))
            kinds.update({token.kind for token in compilation.tokens})
            codes.update({fault.code for fault in compilation.faults} or {"no fault"})
            sound += sum(definition is not None and item not in compilation.faulty
                         for item, definition in enumerate(compilation.definitions))
    print(f"{len(sizes)} edits of {case} texts, which leave {sum(sizes) / len(sizes):.0f} bytes each, "
          f"{max(sizes)} at the most; "
          f"{sound / len(sizes):.1f} definitions without a fault in each")
    for name, often in kinds.most_common() + codes.most_common():
        print(f"{100 * often / len(sizes):5.1f} % {name} {rpclang.CODE_NAMES.get(name, '')}")


if __name__ == "__main__":
    main(sys.argv[1:])
