"""Values of the types of a faultless text: their encodings (RFC 4506 section 4), lines, and why bytes are refused."""
import functools
import random
from collections import namedtuple

import rpclang
from rpclang import EnumBody, StructBody, UnionBody

CODE_NAMES = {50: "Short", 51: "BadBool", 52: "BadEnum", 53: "NoArm", 54: "TooMany", 55: "BadPad", 56: "TooDeep",
              57: "Trailing"}
MOST_LINKS = 65_536
GREATEST_SIZE = 2 ** 32 - 1
NUMBERS = {"int": (4, True), "long": (4, True), "hyper": (8, True), "unsigned int": (4, False),
           "unsigned long": (4, False), "unsigned hyper": (8, False)}
BITS = {"float": 4, "double": 8, "quadruple": 16}

# A value's type: the kind, and what the kind needs. Void, the basic types; opaque and string with size; array with size
# and element; link with element; enum with entries; struct with fields; union with discriminant, arms and default.
# Fields and arms are pairs of label and type; an arm's label is None where it is void.
Type = namedtuple("Type", "kind size element entries fields discriminant arms default", defaults=[None] * 7)
VOID = Type("void")

# A procedure of a program: its name, and the types of its argument and its result.
Procedure = namedtuple("Procedure", "name argument result")


class Schema:
    """The types that the names of a faultless text and those known before it stand for, and the procedures of
    their programs."""

    def __init__(self, compilation):
        assert not compilation.faults
        self.bodies = {}
        self.constants = {name: meaning.number for name, meaning in compilation.meanings.items()
                          if isinstance(meaning, rpclang.Constant)}
        definitions = compilation.known.definitions + compilation.definitions
        for definition in definitions:
            for part in rpclang.parts_of(definition) if definition is not None else []:
                self.bodies[part.name] = part.body
        self.programs = [item for item in definitions if isinstance(item, rpclang.Program)]
        self.made = {}

    def number(self, word):
        return rpclang.number_of(word.text) if word.kind == "Number" else self.constants[word.text]

    def type_named(self, name):
        """The type, or None where no type has this name."""
        if name not in self.made and name in self.bodies:
            self.made[name] = self.type_of_body(name, self.bodies[name])
        return self.made.get(name)

    def type_of_body(self, name, body):
        if isinstance(body, EnumBody):
            return Type("enum", entries=[(word.text, self.constants[word.text]) for word, value in body.enumerators])
        if isinstance(body, StructBody):
            return Type("struct", fields=[self.labelled(name, field) for field in body.fields])
        if isinstance(body, UnionBody):
            arms = {self.number(value): self.labelled(name, arm.declaration)
                    for arm in body.arms for value in arm.values}
            return Type("union", discriminant=self.labelled(name, body.discriminant), arms=arms,
                        default=self.labelled(name, body.default) if body.default else None)
        return self.labelled(name, body)[1]()

    def labelled(self, around, declaration):
        """The label of a declaration, and a call that gives its type (a link's type may still be in the making)."""
        if declaration.form == "void":
            return None, lambda: VOID
        return declaration.name.text, lambda: self.type_of(around, declaration)

    def type_of(self, around, declaration):
        form = declaration.form
        size = self.number(declaration.size) if declaration.size else GREATEST_SIZE
        if form in ("opaque fixed", "opaque counted", "string"):
            return Type(form, size=size)

        def element():
            kind = declaration.type
            if kind.basic:
                return Type(kind.basic)
            return self.type_named(kind.name.text if kind.name else around + b"_" + declaration.name.text)
        if form == "plain":
            return element()
        return Type(form, size=size, element=element)

    @functools.lru_cache(rpclang.KEPT)
    def procedure(self, program, version, number):
        """The procedure of these numbers, in the first program of the text that has it, or None."""
        for definition, part in ((item, part) for item in self.programs for part in item.versions):
            for found in part.procedures:
                if [rpclang.number_of(of.number.text) for of in (definition, part, found)] == [program, version, number]:
                    kinds = [self.type_of_argument(kind) for kind in found.arguments]
                    return Procedure(found.name.text, together(kinds), self.type_of_argument(found.result))
        return None

    def type_of_argument(self, kind):
        """The type of an argument or a result. A string there has any length."""
        if kind.basic == "string":
            return Type("string", size=GREATEST_SIZE)
        return Type(kind.basic) if kind.basic else self.type_named(kind.name.text)


def together(kinds):
    """Several arguments are one struct, whose fields have names by their numbers (RFC 5531 section 12.1)."""
    if len(kinds) == 1:
        return kinds[0]
    return Type("struct", fields=[(b"arg%d" % k, lambda kind=kind: kind) for k, kind in enumerate(kinds, 1)])


def hexadecimal(data):
    return b"0x" + data.hex().encode()


def quoted(data):
    return b'"' + b"".join(
        b"\\" + bytes([byte]) if byte in b'"\\' else bytes([byte]) if 0x20 <= byte <= 0x7e else b"\\x%02x" % byte
        for byte in data) + b'"'


class Stuck(Exception):
    """A unit that no encoding has here: the code and the unit's place."""


class Ended(Exception):
    """The bytes end before the value does, and begin an encoding."""


class Reading:
    """Reads the first value of a type from the bytes, unit by unit, and keeps its lines. What is still to be read
    stands in a list, its next part last; links are the number of links open around a part."""

    def __init__(self, kind, data, label):
        self.data = data
        self.at = 0
        self.lines = []
        self.left = [(self.value, (label, kind, 0, 0))]
        while self.left:
            read, part = self.left.pop()
            read(*part)

    def show(self, level, label, text):
        self.lines.append(b"%d %s = %s\n" % (level, label, text))

    def later(self, *part):
        self.left.append((self.value, part))

    def stuck(self, code):
        """The unit that was read last is one that no encoding has there."""
        raise Stuck(code, self.at - 4)

    def unit(self):
        if self.at + 4 > len(self.data):
            raise Ended
        self.at += 4
        return self.data[self.at - 4:self.at]

    def units(self, length):
        return b"".join(self.unit() for _ in range(0, length, 4))

    def boolean(self):
        word = int.from_bytes(self.unit(), "big")
        return word if word <= 1 else self.stuck(51)

    def count(self, size):
        word = int.from_bytes(self.unit(), "big")
        return word if word <= size else self.stuck(54)

    def one_more(self, links):
        return links + 1 if links < MOST_LINKS else self.stuck(56)

    def body(self, count):
        """So many bytes, filled up with zero bytes to a whole unit."""
        units = []
        for begin in range(0, count, 4):
            units.append(self.unit())
            if any(units[-1][count - begin:]):
                self.stuck(55)
        return b"".join(units)[:count]

    def scalar(self, kind):
        """The number and the text of a value that has no parts and stands for a number."""
        if kind.kind == "bool":
            number = self.boolean()
            return number, b"TRUE" if number else b"FALSE"
        if kind.kind == "enum":
            number = int.from_bytes(self.unit(), "big", signed=True)
            names = [name for name, of in kind.entries if of == number]
            return number, b"%s (%d)" % (names[0] if names else self.stuck(52), number)
        length, signed = NUMBERS[kind.kind]
        number = int.from_bytes(self.units(length), "big", signed=signed)
        return number, b"%d" % number

    def value(self, label, kind, level, links):
        if kind.kind == "union":
            return self.union(label, kind, level, links)
        if kind.kind == "fixed":
            text = b"array %d" % kind.size
            self.elements(kind.element(), 0, kind.size, level + 1, links)
        elif kind.kind == "counted":
            count = self.count(kind.size)
            text = b"array %d" % count
            if count:
                self.elements(kind.element(), 0, count, level + 1, self.one_more(links))
        elif kind.kind == "pointer":
            text = b"link" if self.boolean() else b"null"
            if text == b"link":
                self.later(b"*", kind.element(), level + 1, self.one_more(links))
        elif kind.kind == "struct":
            text = b"struct"
            for name, field in reversed(kind.fields):
                self.later(name, field(), level + 1, links)
        elif kind.kind == "void":
            text = b"void"
        elif kind.kind in BITS:
            text = hexadecimal(self.units(BITS[kind.kind]))
        elif kind.kind == "opaque fixed":
            text = hexadecimal(self.body(kind.size))
        elif kind.kind == "opaque counted":
            text = hexadecimal(self.body(self.count(kind.size)))
        elif kind.kind == "string":
            text = quoted(self.body(self.count(kind.size)))
        else:
            text = self.scalar(kind)[1]
        self.show(level, label, text)

    def elements(self, kind, k, count, level, links):
        """The elements from k on are read later, one after the other."""
        if k + 1 < count:
            self.left.append((self.elements, (kind, k + 1, count, level, links)))
        self.later(b"[%d]" % k, kind, level, links)

    def union(self, label, kind, level, links):
        """The discriminant's word decides whether there is an arm."""
        name, discriminant = kind.discriminant
        number, text = self.scalar(discriminant())
        arm = kind.arms.get(number, kind.default)
        if arm is None:
            self.stuck(53)
        self.show(level, label, b"union")
        self.show(level + 1, name, text)
        if arm[0] is not None:
            self.later(arm[0], arm[1](), level + 1, links)


def reading_of(kind, data, label=b""):
    """The whole value at the front of the bytes, or Ended or Stuck."""
    try:
        return Reading(kind, data, label)
    except (Ended, Stuck) as end:
        # Without what it went through, which keeps all that the callers have.
        return end.with_traceback(None)


def refusal_of(front, data):
    """What is wrong with the bytes that were read so: None for an encoding, else code and place. Three cases:
    an encoding stands in front of more bytes; a unit was read to whose end the bytes begin no encoding, which
    is the first such, since each is judged before the next one is read; they are short."""
    if isinstance(front, Reading):
        return (57, front.at) if front.at < len(data) else None
    return (50, len(data)) if isinstance(front, Ended) else front.args


def refusal(kind, data):
    return refusal_of(reading_of(kind, data), data)


def shown(kind, data, label):
    """The refusal, or None, and the lines where there is none."""
    front = reading_of(kind, data, label)
    refused = refusal_of(front, data)
    return refused, None if refused else front.lines


def schema_of(compilation):
    """The schema of a faultless text, made once."""
    if compilation.schema is None:
        compilation.schema = Schema(compilation)
    return compilation.schema


def answer_of(kind, name, data):
    """What a script's dump line of a type is answered."""
    refused, lines = shown(kind, data, name)
    if refused:
        return b"fault %d %s at %d\n" % (refused[0], CODE_NAMES[refused[0]].encode(), refused[1])
    return b"value %d\n" % len(lines) + b"".join(lines)


def dump_answer(compilation, name, data):
    """A script's answer to a dump line."""
    if compilation.faults:
        return b"refused 40 Faulty\n"
    kind = schema_of(compilation).type_named(name)
    if kind is None:
        return b"refused 42 NoType\n"
    return answer_of(kind, name, data)


# ---------------------------------------------------------------- random values

class Enough(Exception):
    """The encoding has grown long enough."""


class Writing:
    """The encoding of a random value. A long one is cut, and then is the front of an encoding alone."""

    def __init__(self, chance, kind):
        self.chance = chance
        self.units = []
        try:
            self.write(kind, 0)
        except Enough:
            pass

    def unit(self, number):
        if len(self.units) > 200:
            raise Enough
        self.units.append((number % 2 ** 32).to_bytes(4, "big"))

    def body(self, count):
        for begin in range(0, count, 4):
            data = bytes(self.chance.choice([0, 0x20, 0x22, 0x41, 0x5c, 0x7e, 0x7f, self.chance.randrange(256)])
                         for _ in range(min(4, count - begin)))
            self.unit(int.from_bytes(data + bytes(4 - len(data)), "big"))

    def write(self, kind, deep):
        few = 0 if deep > 6 else self.chance.choice([0, 1, 1, 2, 3, 5])
        if kind.kind == "struct":
            for name, field in kind.fields:
                self.write(field(), deep + 1)
        elif kind.kind == "union":
            # A case's number for the discriminant, or any that the type of the discriminant has.
            if self.chance.random() < 0.75:
                number = self.chance.choice(list(kind.arms))
                self.unit(number)
            else:
                self.write(kind.discriminant[1](), deep)
                number = self.units[-1]
                number = next((case for case in kind.arms if (case % 2 ** 32).to_bytes(4, "big") == number), None)
            arm = kind.arms.get(number, kind.default)
            if arm:
                self.write(arm[1](), deep + 1)
        elif kind.kind == "fixed":
            for _ in range(kind.size):
                self.write(kind.element(), deep + 1)
        elif kind.kind == "counted":
            self.unit(min(few, kind.size))
            for _ in range(min(few, kind.size)):
                self.write(kind.element(), deep + 1)
        elif kind.kind == "pointer":
            self.unit(few > 0)
            if few:
                self.write(kind.element(), deep + 1)
        elif kind.kind == "opaque fixed":
            self.body(min(kind.size, 1000))
        elif kind.kind in ("opaque counted", "string"):
            count = min(self.chance.randrange(8), kind.size)
            self.unit(count)
            self.body(count)
        elif kind.kind == "bool":
            self.unit(self.chance.randrange(2))
        elif kind.kind == "enum":
            self.unit(self.chance.choice(kind.entries)[1])
        elif kind.kind != "void":
            length = BITS[kind.kind] if kind.kind in BITS else NUMBERS[kind.kind][0]
            for _ in range(0, length, 4):
                self.unit(self.chance.choice([0, 1, -1, 2 ** 31 - 1, -2 ** 31, self.chance.randrange(2 ** 32)]))


def spoil(chance, data):
    """Bytes cut off, put behind, or a unit changed."""
    way = chance.random()
    if way < 0.2:
        return data[:chance.randrange(len(data) + 1)]
    if way < 0.3:
        return data + bytes(chance.randrange(3) for _ in range(chance.choice([1, 3, 4, 8])))
    if way < 0.5 and data:
        at = chance.randrange(len(data))
        return data[:at] + bytes([chance.choice([0, 1, 2, 0xff])]) + data[at + 1:]
    at = 4 * chance.randrange(len(data) // 4 + 1)
    number = chance.choice([0, 1, 2, 3, 7, 9, 2 ** 31, 2 ** 32 - 1, chance.randrange(2 ** 32)])
    return data[:at] + number.to_bytes(4, "big") + data[at + 4:]


def dump_line(name, data):
    return b"dump " + name + (b" " + data.hex().encode() if data else b"")


def random_dumps(compilation, seed):
    """Some dump lines for a text: encodings of its types, such that are spoiled, and names of no type."""
    chance = random.Random(f"dumps {seed}")
    lines = [dump_line(chance.choice([b"a", b"s", b"TRUE", b"A", b"zz", b"P"]), chance.choice([b"", b"\0", bytes(4)]))]
    if compilation.faults:
        return lines
    schema = schema_of(compilation)
    names = sorted(schema.bodies)
    for name in chance.sample(names, min(4, len(names))):
        data = b"".join(Writing(chance, schema.type_named(name)).units)
        lines.append(dump_line(name, data))
        for _ in range(chance.choice([1, 1, 2, 3])):
            lines.append(dump_line(name, spoil(chance, data)))
    return lines
