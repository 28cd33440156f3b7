"""The Sun RPC language read plainly: tokens, items, definitions, names and rules of one text, each time from scratch.

The language is that of RFC 4506 section 6 and RFC 5531 section 12. Of one text nothing is kept for another
one but what follows of the words of one item alone: how it parses, and what its definition declares and uses.
That is worked out once.
"""
import functools
import re
from collections import namedtuple

# Of how many questions about a text, and about words or a definition, the answers are kept.
KEPT_TEXTS, KEPT = 256, 20_000
KEYWORDS = (b"bool case const default double enum float hyper int long opaque program quadruple string struct switch "
            b"typedef union unsigned version void").split()
# The basic types, in the order by which random texts choose among them.
BASIC_TYPES = (b"int", b"unsigned", b"unsigned int", b"long", b"unsigned long", b"hyper", b"unsigned hyper", b"float", b"double",
               b"quadruple", b"bool")
CODE_NAMES = {
    10: "Syntax", 11: "BadByte", 12: "BadNumber", 13: "OpenComment", 14: "Directive", 15: "Unfinished",
    20: "Duplicate", 21: "Unknown", 22: "LateName", 23: "NotType", 24: "NotConst", 25: "Range", 26: "BadSize",
    27: "VoidPlace", 28: "EmptyArray", 29: "BadDiscriminant", 30: "BadCase", 31: "RepeatedCase", 32: "RepeatedField",
    33: "RepeatedNumber", 34: "TooHigh", 36: "InlineArgument", 37: "UsesFaulty",
}
DEEPEST_INLINE = 32
GREATEST_HEIGHT = 32
INT_32 = range(-2 ** 31, 2 ** 31)
UNSIGNED_32 = range(0, 2 ** 32)
CONSTANTS = range(-2 ** 63, 2 ** 64)

# ---------------------------------------------------------------- tokens

Token = namedtuple("Token", "kind start end text")

# At each place the longest word that any class has there. Where words of several classes begin with one byte,
# the first class that has a word there has the longest. ^ is a place where a line starts, \b one where
# letters, digits and _ end.
CLASSES = [
    ("Space", rb"[\t\n\v\f\r ]+"),
    ("Punct", rb"[{}()\[\]<>,;:=*]"),
    ("Keyword", rb"(?:" + b"|".join(KEYWORDS) + rb")\b"),
    ("Name", rb"[A-Za-z_][A-Za-z0-9_]*"),
    ("Number", rb"(?:-?[1-9][0-9]*|0[xX][0-9a-fA-F]+|0[0-7]*)\b"),
    ("BadNumber", rb"-?[0-9][A-Za-z0-9_]*"),
    ("Comment", rb"/\*(?s:.*?)\*/"),
    ("OpenComment", rb"/\*(?s:.*)"),
    ("Percent", rb"^%[^\n]*"),
    ("Marker", rb"^#[ \t]*[0-9][^\n]*"),
    ("Directive", rb"^#[^\n]*"),
    ("BadByte", rb"(?s:.)"),
]
ANY_TOKEN = re.compile(
    b"|".join(b"(?P<%s>%s)" % (kind.encode(), words) for kind, words in CLASSES), re.MULTILINE)


@functools.lru_cache(KEPT_TEXTS)
def tokens_of(text):
    """The tokens, which follow one another from the first byte to the last."""
    return [Token(match.lastgroup, match.start(), match.end(), match.group())
            for match in ANY_TOKEN.finditer(text)]


def line_and_column(text, at):
    """Both are counted from 1, the column in bytes."""
    return 1 + text.count(b"\n", 0, at), at - text.rfind(b"\n", 0, at)


# ---------------------------------------------------------------- items

def items_of(tokens):
    """Lists of tokens. Each but the last ends with a semicolon outside all braces. A closing brace too many is not
    counted, and each item begins outside all braces."""
    items = [[]]
    depth = 0
    for token in tokens:
        items[-1].append(token)
        if token.kind != "Punct":
            continue
        if token.text == b"{":
            depth += 1
        elif token.text == b"}":
            depth = max(0, depth - 1)
        elif token.text == b";" and depth == 0:
            items.append([])
    return items


# ---------------------------------------------------------------- definitions

# A word is a token that counts for the grammar; its place is the token's index in the item.
Word = namedtuple("Word", "place kind text")

def tree(name, parts):
    """A named tuple that equals itself alone: what is kept of it is found without a look at its parts."""
    alone = {"__slots__": (), "__eq__": object.__eq__, "__ne__": object.__ne__, "__hash__": object.__hash__}
    return type(name, (namedtuple(name, parts),), alone)


Const = tree("Const", "name value")
Typedef = tree("Typedef", "declaration")
Enum = tree("Enum", "name body")
Struct = tree("Struct", "name body")
Union = tree("Union", "name body")
Program = tree("Program", "name versions number")
Version = namedtuple("Version", "name procedures number")
Procedure = namedtuple("Procedure", "result name arguments number")

EnumBody = tree("EnumBody", "enumerators")                  # pairs of name and value or None
StructBody = tree("StructBody", "fields")
UnionBody = tree("UnionBody", "opening discriminant closing arms default")
Arm = namedtuple("Arm", "values declaration")

# Forms: plain, fixed, counted, pointer, opaque fixed, opaque counted, string, void.
Declaration = tree("Declaration", "form first type name size")

# Of a type, exactly one is set but for the tag, which may stand before a name. Basic types are spelled whole
# ("unsigned int" for "unsigned"); "void" and "string" are basic types of arguments and results alone.
Type = namedtuple("Type", "first basic tag name body")

KEYWORD_OF = {Const: "const", Typedef: "typedef", Enum: "enum", Struct: "struct", Union: "union", Program: "program"}


PASSED_OVER = frozenset(["Space", "Comment", "Percent", "Marker"])


class Wrong(Exception):
    """The words up to and with this one begin no definition."""


class Ended(Exception):
    """The words begin a definition and are none."""


class Parser:
    """Reads one definition by the grammar. At each word the grammar leaves one way, so the first word that does not fit
    is the first with which the words begin no definition."""

    def __init__(self, words):
        self.words = words
        self.at = 0
        self.inline = 0

    def peek(self):
        if self.at == len(self.words):
            raise Ended
        return self.words[self.at]

    def step(self):
        word = self.peek()
        self.at += 1
        return word

    def sees(self, *texts):
        word = self.peek()
        return word.kind in ("Keyword", "Punct") and word.text.decode() in texts

    def sees_kind(self, *kinds):
        return self.peek().kind in kinds

    def take(self, *texts):
        if not self.sees(*texts):
            raise Wrong(self.peek())
        return self.step()

    def take_kind(self, *kinds):
        if not self.sees_kind(*kinds):
            raise Wrong(self.peek())
        return self.step()

    def name(self):
        return self.take_kind("Name")

    def number(self):
        return self.take_kind("Number")

    def value(self):
        return self.take_kind("Number", "Name")

    def definition(self):
        keyword = self.take("const", "typedef", "enum", "struct", "union", "program").text
        if keyword == b"const":
            name = self.name()
            self.take("=")
            result = Const(name, self.value())
        elif keyword == b"typedef":
            result = Typedef(self.declaration())
        elif keyword == b"enum":
            result = Enum(self.name(), self.enum_body())
        elif keyword == b"struct":
            result = Struct(self.name(), self.struct_body())
        elif keyword == b"union":
            result = Union(self.name(), self.union_body())
        else:
            result = self.program()
        self.take(";")
        return result

    def braced(self, read):
        """One or more of something in braces."""
        self.take("{")
        parts = [read()]
        while not self.sees("}"):
            parts.append(read())
        self.take("}")
        return parts

    def program(self):
        name = self.name()
        versions = self.braced(self.version)
        self.take("=")
        return Program(name, versions, self.number())

    def version(self):
        self.take("version")
        name = self.name()
        procedures = self.braced(self.procedure)
        self.take("=")
        number = self.number()
        self.take(";")
        return Version(name, procedures, number)

    def procedure(self):
        result = self.argument("void")
        name = self.name()
        self.take("(")
        arguments = [self.argument("void")]
        while self.sees(","):
            self.take(",")
            arguments.append(self.argument())
        self.take(")")
        self.take("=")
        number = self.number()
        self.take(";")
        return Procedure(result, name, arguments, number)

    def argument(self, *more):
        if self.sees("string", *more):
            word = self.step()
            return Type(word, word.text.decode(), None, None, None)
        return self.type()

    def declaration(self):
        first = self.peek()
        if self.sees("void"):
            self.step()
            return Declaration("void", first, None, None, None)
        if self.sees("opaque"):
            self.step()
            name = self.name()
            if self.sees("["):
                return Declaration("opaque fixed", first, None, name, self.fixed_size())
            return Declaration("opaque counted", first, None, name, self.greatest_size())
        if self.sees("string"):
            self.step()
            name = self.name()
            return Declaration("string", first, None, name, self.greatest_size())
        kind = self.type()
        if self.sees("*"):
            self.step()
            return Declaration("pointer", first, kind, self.name(), None)
        name = self.name()
        if self.sees("["):
            return Declaration("fixed", first, kind, name, self.fixed_size())
        if self.sees("<"):
            return Declaration("counted", first, kind, name, self.greatest_size())
        return Declaration("plain", first, kind, name, None)

    def fixed_size(self):
        self.take("[")
        size = self.value()
        self.take("]")
        return size

    def greatest_size(self):
        self.take("<")
        size = None if self.sees(">") else self.value()
        self.take(">")
        return size

    def type(self):
        first = self.peek()
        if self.sees_kind("Name"):
            return Type(first, None, None, self.step(), None)
        keyword = self.take("unsigned", "int", "long", "hyper", "float", "double", "quadruple", "bool",
                            "enum", "struct", "union").text.decode()
        if keyword == "unsigned":
            size = self.step().text.decode() if self.sees("int", "long", "hyper") else "int"
            return Type(first, "unsigned " + size, None, None, None)
        if keyword not in ("enum", "struct", "union"):
            return Type(first, keyword, None, None, None)
        if self.sees_kind("Name"):
            return Type(first, None, keyword, self.step(), None)
        if self.inline == DEEPEST_INLINE:
            raise Wrong(self.peek())
        self.inline += 1
        body = {"enum": self.enum_body, "struct": self.struct_body, "union": self.union_body}[keyword]()
        self.inline -= 1
        return Type(first, None, None, None, body)

    def enum_body(self):
        self.take("{")
        enumerators = [self.enumerator()]
        while not self.sees("}"):
            self.take(",", "}")
            enumerators.append(self.enumerator())
        self.take("}")
        return EnumBody(enumerators)

    def enumerator(self):
        name = self.name()
        if not self.sees("="):
            return name, None
        self.take("=")
        return name, self.value()

    def field(self):
        declaration = self.declaration()
        self.take(";")
        return declaration

    def struct_body(self):
        return StructBody(self.braced(self.field))

    def union_body(self):
        self.take("switch")
        opening = self.take("(")
        discriminant = self.declaration()
        closing = self.take(")")
        self.take("{")
        arms = [self.arm()]
        while self.sees("case"):
            arms.append(self.arm())
        default = None
        if self.sees("default"):
            self.take("default")
            self.take(":")
            default = self.field()
        self.take("}")
        return UnionBody(opening, discriminant, closing, arms, default)

    def arm(self):
        values = []
        while not values or self.sees("case"):
            self.take("case")
            values.append(self.value())
            self.take(":")
        return Arm(values, self.field())


def parse(item):
    """Of one item: ("nothing", None), ("definition", tree) or ("fault", (place, code))."""
    return parse_spelled(tuple([(token.kind, token.text) for token in item]))


@functools.lru_cache(KEPT)
def parse_spelled(tokens):
    words = [Word(place, kind, text) for place, (kind, text) in enumerate(tokens) if kind not in PASSED_OVER]
    if not words:
        return "nothing", None
    try:
        return "definition", Parser(words).definition()
    except Ended:
        return "fault", (words[-1].place, 15)
    except Wrong as wrong:
        word = wrong.args[0]
        codes = {"BadByte": 11, "BadNumber": 12, "OpenComment": 13, "Directive": 14}
        return "fault", (word.place, codes.get(word.kind, 10))


# ---------------------------------------------------------------- names

# One type of an item: its own (word is its own name) or one lifted from it. A typedef's body is its declaration.
Part = namedtuple("Part", "name word body lifted")
Declared = namedtuple("Declared", "name place shape lifted")
# Use is "value", "by value" or "link". Needs is "constant", "type" or the tag before the name. Of is, for the value of
# a const or of an enumerator, the place of the name that it is the value of.
Mention = namedtuple("Mention", "name place use needs of")


def own_name(definition):
    """The word of the own name; None for a typedef of void."""
    return definition.declaration.name if isinstance(definition, Typedef) else definition.name


@functools.lru_cache(KEPT)
def declarations_in(body):
    """The declarations that stand directly in a body, in order."""
    if isinstance(body, StructBody):
        return body.fields
    if isinstance(body, UnionBody):
        last = [body.default] if body.default else []
        return [body.discriminant] + [arm.declaration for arm in body.arms] + last
    if isinstance(body, Declaration):
        return [body]
    return []


def is_inline(kind):
    return kind is not None and kind.body is not None


def lifted_parts(around, body):
    """The types lifted from a body: each has the name around it, an underscore and its declaration's name, and comes
    after those lifted from itself."""
    parts = []
    for declaration in declarations_in(body):
        if is_inline(declaration.type):
            name = around + b"_" + declaration.name.text
            parts += lifted_parts(name, declaration.type.body)
            parts.append(Part(name, declaration.name, declaration.type.body, True))
    return parts


@functools.lru_cache(KEPT)
def parts_of(definition):
    """The types that an item defines: those lifted from it, in the order of their declarations, then its own. Constants
    and programs define none: an inline type of a procedure is not looked into."""
    word = own_name(definition)
    if word is None or isinstance(definition, (Const, Program)):
        return []
    body = definition.declaration if isinstance(definition, Typedef) else definition.body
    return lifted_parts(word.text, body) + [Part(word.text, word, body, False)]


def shape_of(body):
    return {EnumBody: "enum", StructBody: "struct", UnionBody: "union", Declaration: "typedef"}[type(body)]


@functools.lru_cache(KEPT)
def declared(definition):
    """The names that an item declares, in the order of their words; at one word the own name comes first."""
    names = []
    if isinstance(definition, Const):
        names.append(Declared(definition.name.text, definition.name.place, "constant", False))
    if isinstance(definition, Program):
        names.append(Declared(definition.name.text, definition.name.place, "program", False))
    for part in parts_of(definition):
        names.append(Declared(part.name, part.word.place, shape_of(part.body), part.lifted))
        if isinstance(part.body, EnumBody):
            names += [Declared(name.text, name.place, "constant", False) for name, value in part.body.enumerators]
    return sorted(names, key=lambda name: (name.place, name.lifted))


def value_mention(word, of=None):
    if word is None or word.kind != "Name":
        return []
    return [Mention(word.text, word.place, "value", "constant", of)]


def type_mention(kind, use):
    if kind is None or kind.name is None:
        return []
    return [Mention(kind.name.text, kind.name.place, use, kind.tag or "type", None)]


def use_of(declaration):
    return "by value" if declaration.form in ("plain", "fixed") else "link"


@functools.lru_cache(KEPT)
def mentioned(definition):
    """The names that an item uses, in the order of their words."""
    mentions = []
    if isinstance(definition, Const):
        mentions += value_mention(definition.value, definition.name.place)
    if isinstance(definition, Program):
        for version in definition.versions:
            for procedure in version.procedures:
                for kind in [procedure.result] + procedure.arguments:
                    mentions += type_mention(kind, "by value")
    for part in parts_of(definition):
        if isinstance(part.body, EnumBody):
            for name, value in part.body.enumerators:
                mentions += value_mention(value, name.place)
        if isinstance(part.body, UnionBody):
            for arm in part.body.arms:
                for value in arm.values:
                    mentions += value_mention(value)
        for declaration in declarations_in(part.body):
            mentions += type_mention(declaration.type, use_of(declaration)) + value_mention(declaration.size)
    return sorted(mentions, key=lambda mention: mention.place)


def number_of(text):
    """The number that a Number spells."""
    if text[:2] in (b"0x", b"0X"):
        return int(text[2:], 16)
    if text[:1] == b"0":
        return int(text, 8)
    return int(text)


# ---------------------------------------------------------------- what a name means

# What stands behind a name of a faultless item. The class of a type as discriminant is "int", "unsigned", "bool", a
# frozen set of numbers (an enum's) or None.
Constant = namedtuple("Constant", "number")
Meant = namedtuple("Meant", "discriminant height")
PROGRAM = "program"
BAD = "bad"
FIRST = namedtuple("FIRST", "item place shape lifted")

BEFOREHAND = {b"TRUE": Constant(1), b"FALSE": Constant(0)}

# What comes before a text and is no part of it: of each name its first declarer, as of an item before all,
# and what the name means; where it stands, the file's name, line and column, if it stands in a file; and the
# definitions.
Known = namedtuple("Known", "first meanings places definitions")
NOTHING = Known({name: FIRST(-1, 0, "constant", False) for name in BEFOREHAND}, BEFOREHAND, {}, [])


def first_declarers(definitions, known):
    """For each name the least pair of item and word that declares it. What is known comes before all."""
    first = dict(known.first)
    for item, definition in enumerate(definitions):
        if definition is not None:
            for name in declared(definition):
                first.setdefault(name.name, FIRST(item, name.place, name.shape, name.lifted))
    return first


class Check:
    """The rules on one definition, given the first declarers of the text and the meanings of the items before it."""

    def __init__(self, item, definition, first, meanings):
        self.item = item
        self.definition = definition
        self.first = first
        self.meanings = meanings
        self.parts = parts_of(definition)
        # The fault of each use of a name, by its place; None where it has none.
        self.codes = {mention.place: self.mention_code(mention) for mention in mentioned(definition)}
        self.constants = {}         # by the place of the declaring name; None where it has no number
        self.late_ranges = set()    # names of enumerators without a value that are one over the greatest
        self.find_constants()
        self.heights = {}           # by the name of the part
        for part in self.parts:
            self.heights[part.word.place, part.lifted] = 1 + max([0] + [
                self.height_of(declaration) for declaration in declarations_in(part.body)])

    # ------------------------------------------------------------ mentions

    def mention_code(self, mention):
        """The fault of one use of a name, the first that applies, or None."""
        first = self.first.get(mention.name)
        # Nobody declares it.
        if first is None:
            return 21
        # A type is needed and this is none; or a tag stands before it and this is another kind of type.
        if mention.needs != "constant":
            types = ("enum", "struct", "union", "typedef") if mention.needs == "type" else (mention.needs,)
            if first.shape not in types:
                return 23
        # A value is needed and this is no constant.
        elif first.shape != "constant":
            return 24
        # It comes too late: a value must be declared at an earlier word that is not the one it is the value of; what
        # is used by value must be declared in an earlier item; a link may look ahead to structs and unions that have
        # a definition of their own.
        if mention.use == "value":
            if (first.item, first.place) >= (self.item, mention.place):
                return 22
            if first.item == self.item and first.place == mention.of:
                return 22
        elif mention.use == "by value":
            if first.item >= self.item:
                return 22
        elif first.item >= self.item and (first.shape not in ("struct", "union") or first.lifted):
            return 22
        # It is declared in an earlier item that has a fault. Links do not mind.
        if mention.use != "link" and first.item < self.item and self.meanings[mention.name] == BAD:
            return 37
        return None

    def mention_faults(self):
        return {(place, code) for place, code in self.codes.items() if code is not None}

    def code_at(self, word):
        """The fault of the name that stands at this word, or None."""
        return self.codes.get(word.place)

    # ------------------------------------------------------------ numbers

    def number_at(self, word):
        """The number of a value word, or None where it has none."""
        if word.kind == "Number":
            number = number_of(word.text)
            return number if number in CONSTANTS else None
        if self.code_at(word) is not None:
            return None
        first = self.first[word.text]
        if first.item == self.item:
            return self.constants[first.place]
        return self.meanings[word.text].number

    def find_constants(self):
        """The numbers of the constants that the item declares, in the order of their words."""
        if isinstance(self.definition, Const):
            self.constants[self.definition.name.place] = self.number_at(self.definition.value)
        bodies = [part.body for part in self.parts if isinstance(part.body, EnumBody)]
        for body in sorted(bodies, key=lambda body: body.enumerators[0][0].place):
            before, sound = -1, True
            for name, value in body.enumerators:
                if value is not None:
                    number = self.number_at(value)
                    sound = number in INT_32 if number is not None else False
                elif sound:
                    # One more than the enumerator before it, and the first has 0.
                    number = before + 1
                    sound = number in INT_32
                    if not sound:
                        self.late_ranges.add(name.place)
                else:
                    number = None
                self.constants[name.place] = number
                before = number

    def numbers_of(self, body):
        """The set of an enum's numbers, or None where one is missing."""
        numbers = [self.constants[name.place] for name, value in body.enumerators]
        return None if None in numbers else frozenset(numbers)

    # ------------------------------------------------------------ heights and classes

    def height_of(self, declaration):
        """What a declaration adds to the height of the type around it: nothing through a link, for a type that has no
        name or body, or where the name has a fault."""
        kind = declaration.type
        if kind is None or use_of(declaration) == "link" or kind.basic:
            return 0
        if kind.body is not None:
            return 1 + max([0] + [self.height_of(inner) for inner in declarations_in(kind.body)])
        if self.code_at(kind.name) is not None:
            return 0
        return self.meanings[kind.name.text].height

    def class_of(self, kind):
        """The class of a type as discriminant; "unknown" where its name has a fault or an enumerator no number."""
        if kind.basic:
            return {"int": "int", "long": "int", "unsigned int": "unsigned", "unsigned long": "unsigned",
                    "bool": "bool"}.get(kind.basic)
        if isinstance(kind.body, EnumBody):
            numbers = self.numbers_of(kind.body)
            return "unknown" if numbers is None else numbers
        if kind.body is not None:
            return None
        if self.code_at(kind.name) is not None:
            return "unknown"
        return self.meanings[kind.name.text].discriminant

    # ------------------------------------------------------------ the other rules, each giving pairs of place and code

    def duplicate(self):
        """20: the name has a declarer at an earlier place, or is declared beforehand."""
        for name in declared(self.definition):
            first = self.first[name.name]
            if (first.item, first.place) != (self.item, name.place):
                yield name.place, 20

    def values(self):
        """All value words: of a const, of enumerators, of cases, and sizes."""
        if isinstance(self.definition, Const):
            yield self.definition.value
        for part in self.parts:
            if isinstance(part.body, EnumBody):
                yield from [value for name, value in part.body.enumerators if value]
            if isinstance(part.body, UnionBody):
                yield from [value for arm in part.body.arms for value in arm.values]
            yield from [declaration.size for declaration in declarations_in(part.body) if declaration.size]

    def out_of_range(self):
        """25: a spelled number beyond the constants; an enumerator's beyond 32 bits with a sign, told at its value, or
        at its name where it goes on from the greatest; a program's, version's or procedure's beyond 32 bits."""
        for value in self.values():
            if value.kind == "Number" and number_of(value.text) not in CONSTANTS:
                yield value.place, 25
        for part in self.parts:
            if isinstance(part.body, EnumBody):
                for name, value in part.body.enumerators:
                    if value and self.number_at(value) is not None and self.number_at(value) not in INT_32:
                        yield value.place, 25
        for place in self.late_ranges:
            yield place, 25
        if isinstance(self.definition, Program):
            numbers = [self.definition.number]
            for version in self.definition.versions:
                numbers += [version.number] + [procedure.number for procedure in version.procedures]
            for number in numbers:
                if number_of(number.text) not in UNSIGNED_32:
                    yield number.place, 25

    def sizes(self):
        """26: a size beyond 32 bits without a sign. 28: a fixed size of 0."""
        for part in self.parts:
            for declaration in declarations_in(part.body):
                if declaration.size is None:
                    continue
                number = self.number_at(declaration.size)
                if number is not None and number not in UNSIGNED_32:
                    yield declaration.size.place, 26
                if number == 0 and declaration.form in ("fixed", "opaque fixed"):
                    yield declaration.size.place, 28

    def misplaced_void(self):
        """27: void as a field, as what a typedef declares, as a discriminant, or as one of several arguments."""
        if isinstance(self.definition, Typedef) and self.definition.declaration.form == "void":
            yield self.definition.declaration.first.place, 27
        for part in self.parts:
            places = part.body.fields if isinstance(part.body, StructBody) else []
            if isinstance(part.body, UnionBody):
                places = [part.body.discriminant]
            for declaration in places:
                if declaration.form == "void":
                    yield declaration.first.place, 27
        for procedure in self.procedures():
            if len(procedure.arguments) > 1 and procedure.arguments[0].basic == "void":
                yield procedure.arguments[0].first.place, 27

    def procedures(self):
        versions = self.definition.versions if isinstance(self.definition, Program) else []
        return [procedure for version in versions for procedure in version.procedures]

    def unions(self):
        return [part.body for part in self.parts if isinstance(part.body, UnionBody)]

    def discriminants(self):
        """29: what a union is switched on is an array, a link, opaque, a string, or of a type without a class. A void
        has 27 alone, and of a name that has a fault nothing is known."""
        for union in self.unions():
            declaration = union.discriminant
            if declaration.form == "void":
                continue
            if declaration.form != "plain" or self.class_of(declaration.type) is None:
                yield declaration.first.place, 29

    def repeated_cases(self):
        """31: the number of a case stands in an earlier case of the union."""
        for union in self.unions():
            seen = set()
            for value in [value for arm in union.arms for value in arm.values]:
                number = self.number_at(value)
                if number is not None and number in seen:
                    yield value.place, 31
                seen.add(number)

    def repeated_names(self):
        """32: a name comes again among the fields of a struct, the discriminant and arms of a union, the versions of a
        program or the procedures of a version."""
        lists = [[declaration.name for declaration in declarations_in(part.body)] for part in self.parts]
        if isinstance(self.definition, Program):
            lists.append([version.name for version in self.definition.versions])
            lists += [[procedure.name for procedure in version.procedures] for version in self.definition.versions]
        for names in lists:
            seen = set()
            for name in names:
                if name is not None:
                    if name.text in seen:
                        yield name.place, 32
                    seen.add(name.text)

    def repeated_numbers(self):
        """33: two versions of a program or two procedures of a version have one number."""
        if not isinstance(self.definition, Program):
            return
        lists = [[version.number for version in self.definition.versions]]
        lists += [[procedure.number for procedure in version.procedures] for version in self.definition.versions]
        for numbers in lists:
            seen = set()
            for word in numbers:
                number = self.number_at(word)
                if number is not None and number in seen:
                    yield word.place, 33
                seen.add(number)

    def too_high(self):
        """34: the own type or one lifted from it is over 32 types high, told at the own name."""
        if any(height > GREATEST_HEIGHT for height in self.heights.values()):
            yield own_name(self.definition).place, 34

    def inline_arguments(self):
        """36: an inline type as argument or result."""
        for procedure in self.procedures():
            for kind in [procedure.result] + procedure.arguments:
                if is_inline(kind):
                    yield kind.first.place, 36

    def bad_cases(self, others):
        """30: a case value that its discriminant can't have. Not asked where a fault stands in the brackets of switch,
        or where an enumerator there has no number."""
        for union in self.unions():
            inside = range(union.opening.place, union.closing.place)
            if any(place in inside for place, code in others):
                continue
            kind = self.class_of(union.discriminant.type)
            allowed = {"int": INT_32, "unsigned": UNSIGNED_32, "bool": range(0, 2)}.get(kind, kind)
            if allowed == "unknown":
                continue
            for value in [value for arm in union.arms for value in arm.values]:
                number = self.number_at(value)
                if number is not None and number not in allowed:
                    yield value.place, 30

    def faults(self):
        """All pairs of place and code, each once, in order."""
        found = self.mention_faults()
        for rule in (self.duplicate, self.out_of_range, self.sizes, self.misplaced_void, self.discriminants,
                     self.repeated_cases, self.repeated_names, self.repeated_numbers, self.too_high,
                     self.inline_arguments):
            found |= set(rule())
        return sorted(found | set(self.bad_cases(found)))

    def meaning(self, name):
        """What a declared name of this faultless item means."""
        if name.shape == "constant":
            return Constant(self.constants[name.place])
        if name.shape == "program":
            return PROGRAM
        part = [part for part in self.parts if (part.word.place, part.lifted) == (name.place, name.lifted)][0]
        discriminant = None
        if isinstance(part.body, EnumBody):
            discriminant = self.numbers_of(part.body)
        elif isinstance(part.body, Declaration) and part.body.form == "plain":
            discriminant = self.class_of(part.body.type)
        return Meant(discriminant, self.heights[part.word.place, part.lifted])


# ---------------------------------------------------------------- a whole text

Fault = namedtuple("Fault", "item token line column code")


class Compilation:
    """All that is told of one text, before which this is known."""

    def __init__(self, text, known=NOTHING):
        self.text = text
        self.known = known
        self.tokens = tokens_of(text)
        self.items = items_of(self.tokens)
        self.lines = [b"".join([token.text[1:] + b"\n" for token in item if token.kind == "Percent"])
                      for item in self.items]
        parses = [parse(item) for item in self.items]
        self.definitions = [found if kind == "definition" else None for kind, found in parses]
        self.first = first_declarers(self.definitions, known)
        # The same of the text alone.
        self.own = self.first if known is NOTHING else first_declarers(self.definitions, NOTHING)
        self.meanings = dict(known.meanings)
        self.faults = []
        self.faulty = set()
        self.schema = None          # that of values.py, once it is asked for
        self.foreign = []           # by before.py: item and place of the first mention of each foreign name
        self.foreign_uses = []      # by before.py: item and place of each mention of one
        for item, (kind, found) in enumerate(parses):
            if kind == "fault":
                self.tell(item, [found])
            elif kind == "definition":
                self.check(item, found)

    def tell(self, item, pairs):
        for place, code in pairs:
            line, column = line_and_column(self.text, self.items[item][place].start)
            self.faults.append(Fault(item, place, line, column, code))
            self.faulty.add(item)

    def check(self, item, definition):
        check = Check(item, definition, self.first, self.meanings)
        self.tell(item, check.faults())
        for name in declared(definition):
            if self.first[name.name].item == item and name.name not in self.meanings:
                self.meanings[name.name] = BAD if item in self.faulty else check.meaning(name)

    def known_behind(self, path):
        """What is known before a text that comes after this one. This one is in a file, or in none (None)."""
        first, places = dict(self.known.first), dict(self.known.places)
        for name, at in self.first.items():
            if name not in first:
                first[name] = at._replace(item=-1)
                if path is not None:
                    start = self.items[at.item][at.place].start
                    places[name] = (path, *line_and_column(self.text, start))
        return Known(first, self.meanings, places, self.known.definitions + self.definitions)


def definition_line(item, definition):
    """As a script's answer writes it."""
    word = own_name(definition)
    return b"%d %s %s\n" % (item, KEYWORD_OF[type(definition)].encode(), word.text if word else b"-")
