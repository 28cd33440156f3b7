#!/usr/bin/env python3
"""Random texts without a fault whose names meet in C, from a seed.

    clash_texts.py TEXTS SEED    prints how often each kind of clash comes up

Names come from small pools, one for each role, in which there are names that the texts give to C for others (`u_u`,
`x_len`, `get_1`, `xdr_s`, `arg1`, `p_1_table`) and names that C has, some of them as macros that stand for a number:
these have that number in the text, in its spelling or another one, or another number. How many names of a text are such
ones is chosen for each text, so that there are texts without a clash, with a single one and with many.
"""
import collections
import random
import sys

sys.dont_write_bytecode = True

import clashes
import rpclang

# Names that meet nothing but one another, by role.
PLAIN = {
    "type": "s t u v w node color",
    "constant": "N M LIMIT RED GREEN BLUE",
    "member": "a b c d x y link",
    "program": "P Q PROG",
    "version": "V W V1 V2",
    "procedure": "GET PUT ADD LIST REMOVE",
}
# Names that meet those that others bring, or that C has. Each role takes any of them, most often its own.
NASTY = {
    "type": "get_1 get_2 get_1_svc get_1_argument add_1_argument xdr xdr_s xdr_u xdr_get_1_argument p_1_table p_1_nproc"
            " s_x u_x x_u u_u V GET",
    "constant": "x a a_len x_len x_val u_u v_u s t arg1 arg2 GET V get_1 get_1_svc xdr_s xdr_t p_1_table",
    "member": "x x_len x_val x_u u_u v_u t_x_u arg1 s GET N V P xdr_s xdr_getlong a_len",
    "program": "P p Q q GET get_1 V x_len u_u a s",
    "version": "V V1 P Q GET N p_1_table x a s s_1 u_u x_val xdr_s TRUE",
    "procedure": "GET Get get get_1 XDR_S arg1 arg2 V N P x a s a_len u_u xdr_s S_1 TRUE NULL",
}
OF_C = ("register for asm typeof new class and MAXPATHLEN stdin xdr_getlong clnt_call xdr_rpcvers u_int"
        " int32_t int64_t bool_t FILE memset printf RPC_SUCCESS timeval sockaddr svc_req timezone rpcgen_table xdrs objp argp"
        " clnt clnt_res timeout getlong pointer u_long XDR cl_call cl_ops").split()
# Names of macros that stand for a number in C; those of other roles have them less often.
NUMBERED = "unix linux SIGHUP SIGINT SIGQUIT AUTH_SYS NC_VISIBLE RPC_ANYSOCK MAX_MACHINE_NAME".split()
MACROS = "constant", "program", "version", "procedure"
# C has no `quadruple`.
BASIC = [word.decode() for word in rpclang.BASIC_TYPES if word != b"quadruple"]
SIZES = range(1, 5)


class Maker:
    """Makes definitions as texts. `nasty` is how likely a name is one that meets others, `of_c` one that C has, and
    `of_number` that of a macro one that C has for a number."""

    def __init__(self, chance):
        self.chance = chance
        self.nasty = chance.choice([0, 0, 0.05, 0.1, 0.3, 0.6])
        self.of_c = chance.choice([0, 0, 0, 0.03, 0.1])
        self.of_number = chance.choice([0, 0, 0, 0.05, 0.2])
        self.used = {"TRUE", "FALSE"}
        self.constants = []         # pairs of name and number
        self.types = []             # names that may be used by value
        self.enums = []             # pairs of name and numbers
        self.coming = []            # structs to be defined
        self.given = []             # names that others bring
        self.count = 0

    # ------------------------------------------------------------ names

    def any_name(self, role):
        if role in MACROS and self.chance.random() < self.of_number:
            return self.chance.choice(NUMBERED)
        way = self.chance.random()
        if way < self.of_c:
            return self.chance.choice(OF_C + NUMBERED)
        if way < self.of_c + self.nasty:
            if self.given and self.chance.random() < 0.4:
                return self.chance.choice(self.given)
            roles = [role] * 4 + list(NASTY)
            return self.chance.choice(NASTY[self.chance.choice(roles)].split())
        return self.chance.choice(PLAIN[role].split())

    def name(self, role, is_free):
        """A name of the role that is free, or one that no pool has."""
        for _ in range(6):
            name = self.any_name(role)
            if is_free(name):
                return name
        self.count += 1
        return f"n{self.count}"

    def declared(self, role):
        """A name for a definition or an enumerator."""
        name = self.name(role, lambda name: name not in self.used)
        self.used.add(name)
        self.given += [f"xdr_{name}", f"{name}_u"] if role == "type" else [name]
        return name

    # ------------------------------------------------------------ numbers

    def spelled(self, number):
        if number < 0:
            return str(number)
        return self.chance.choice([str(number)] * 4 + [f"0x{number:x}", f"0{number:o}"])

    def number_of_c(self, name):
        """Now and then the number that C has for a macro of the name, in that spelling or in another one."""
        spelled = clashes.numbers_of_c().get(name.encode())
        way = self.chance.random()
        if spelled is None or way > 0.7:
            return None
        return spelled.decode() if way < 0.5 else self.spelled(rpclang.number_of(spelled))

    def value(self, numbers):
        """A number, or the name of a constant with one of these."""
        fitting = [name for name, number in self.constants if number in numbers]
        if fitting and self.chance.random() < 0.5:
            return self.chance.choice(fitting)
        return self.spelled(self.chance.choice(list(numbers)))

    def size(self, form):
        return "" if form == "<>" and self.chance.random() < 0.5 else self.value(SIZES)

    # ------------------------------------------------------------ types

    def enumerators(self):
        """The body of an enum, and its numbers."""
        parts, numbers, number = [], [], -1
        for _ in range(self.chance.choice([1, 2, 2, 3])):
            name = self.declared("constant")
            number = self.chance.randint(-3, 9) if self.chance.random() < 0.5 else number + 1
            parts.append(f"{name} = {self.spelled(number)}" if number != (numbers or [-1])[-1] + 1 else name)
            numbers.append(number)
            self.constants.append((name, number))
        return "{ " + ", ".join(parts) + " }", numbers

    def struct(self, around, deep):
        names = set()
        fields = [self.declaration(around, names, deep) + ";" for _ in range(self.chance.choice([1, 1, 2, 2, 3, 4]))]
        return "{ " + " ".join(fields) + " }"

    def union(self, around, deep):
        names = set()
        kind, numbers = self.discriminant()
        name = f"{around}_u" if self.chance.random() < self.nasty / 3 else self.field(around, names)
        names.add(name)
        if kind is None:
            self.used.add(f"{around}_{name}")
            body, numbers = self.enumerators()
            kind = "enum " + body
        left, arms = sorted(set(numbers)), []
        while left and (not arms or self.chance.random() < 0.6):
            cases = [left.pop(self.chance.randrange(len(left))) for _ in range(self.chance.choice([1, 1, 2])) if left]
            labels = "".join(f"case {self.value([case])}: " for case in cases)
            arms.append(labels + self.arm(around, names, deep))
        if self.chance.random() < 0.4:
            arms.append("default: " + self.arm(around, names, deep))
        return f"switch ({kind} {name}) {{ " + " ".join(arms) + " }"

    def arm(self, around, names, deep):
        return "void;" if self.chance.random() < 0.3 else self.declaration(around, names, deep) + ";"

    def discriminant(self):
        """A type and numbers of it; no type stands for an enum in its place."""
        way = self.chance.random()
        if way < 0.3 and self.enums:
            return self.chance.choice(self.enums)
        return self.chance.choice([("int", range(-2, 5)), ("unsigned", range(4)), ("bool", range(2)), (None, [])])

    def field(self, around, names):
        """A name that neither the body nor, with the name around it, a definition has."""
        name = self.name("member", lambda name: name not in names and f"{around}_{name}" not in self.used)
        names.add(name)
        self.given += [name, f"{name}_len"]
        return name

    def declaration(self, around, names, deep):
        """A declaration in a body."""
        return self.declared_as(self.field(around, names), around, deep)

    def declared_as(self, name, around, deep):
        way = self.chance.random()
        if way < 0.1:
            return f"opaque {name}" + self.chance.choice([f"<{self.size('<>')}>", f"[{self.size('[]')}]"])
        if way < 0.16:
            return f"string {name}<{self.size('<>')}>"
        form = self.chance.choice(["", "", "", "*", "<>", "<>", "[]"])
        kind = self.type(name, around, deep, form in ("*", "<>"))
        if form == "*":
            return f"{kind} *{name}"
        return f"{kind} {name}" + (form[0] + self.size(form) + form[1] if form else "")

    def type(self, name, around, deep, link):
        way = self.chance.random()
        if way < 0.15 and deep < 2:
            return self.inline(f"{around}_{name}", deep + 1)
        if way < 0.3 and link and self.coming:
            return self.chance.choice(self.coming)
        if way < 0.6 and self.types:
            return self.chance.choice(self.types)
        return self.chance.choice(BASIC)

    def inline(self, lifted, deep):
        self.used.add(lifted)
        way = self.chance.random()
        if way < 0.3:
            return "enum " + self.enumerators()[0]
        return "struct " + self.struct(lifted, deep) if way < 0.7 else "union " + self.union(lifted, deep)

    # ------------------------------------------------------------ definitions

    def definition(self):
        way = self.chance.random()
        if way < 0.2:
            return self.constant()
        if way < 0.4:
            return self.program()
        return self.type_definition()

    def constant(self):
        name = self.declared("constant")
        value, number = self.number_of_c(name), self.chance.randint(1, 6)
        if value is None:
            value = self.value([number])
        else:
            number = rpclang.number_of(value.encode())
        self.constants.append((name, number))
        return f"const {name} = {value};"

    def type_definition(self):
        kind = self.chance.choice(["enum", "struct", "struct", "union", "union", "typedef", "typedef"])
        if kind == "struct" and self.coming and self.chance.random() < 0.5:
            name = self.coming.pop()
        else:
            name = self.declared("type")
        if kind == "enum":
            body, numbers = self.enumerators()
            self.enums.append((name, numbers))
            text = f"enum {name} {body};"
        elif kind == "struct":
            text = f"struct {name} {self.struct(name, 0)};"
        elif kind == "union":
            text = f"union {name} {self.union(name, 0)};"
        else:
            text = f"typedef {self.declared_as(name, name, 0)};"
        self.types.append(name)
        return text

    def program(self):
        name = self.declared("program")
        names, numbers = set(), set()
        versions = [self.version(name.lower(), names, numbers) for _ in range(self.chance.choice([1, 1, 2]))]
        number = self.number_of_c(name) or self.spelled(self.chance.randint(70, 75))
        return f"program {name} {{ {' '.join(versions)} }} = {number};"

    def numbered(self, role, names, numbers):
        """A name and a number that are free there."""
        name = self.name(role, lambda name: name not in names)
        names.add(name)
        number = self.chance.choice([number for number in range(1, 9) if number not in numbers][:2])
        number = self.number_of_c(name) or self.spelled(number)
        numbers.add(rpclang.number_of(number.encode()))
        return name, number

    def version(self, program, names, numbers):
        name, number = self.numbered("version", names, numbers)
        decimal = rpclang.number_of(number.encode())
        self.given += [name, f"{program}_{decimal}_table", f"{program}_{decimal}_nproc"]
        inside = set(), set()
        procedures = [self.procedure(decimal, *inside) for _ in range(self.chance.choice([1, 1, 2, 3]))]
        return f"version {name} {{ {' '.join(procedures)} }} = {number};"

    def procedure(self, version, names, numbers):
        name, number = self.numbered("procedure", names, numbers)
        self.given += [name] + [f"{name.lower()}_{version}{end}" for end in ("", "_svc", "_argument")]
        count = self.chance.choice([0, 0, 1, 1, 1, 2, 2, 3])
        arguments = ", ".join(self.argument() for _ in range(count)) or "void"
        result = "void" if self.chance.random() < 0.3 else self.argument()
        return f"{result} {name}({arguments}) = {number};"

    def argument(self):
        if self.types and self.chance.random() < 0.5:
            return self.chance.choice(self.types)
        return self.chance.choice(BASIC + ["string"])

    def text(self):
        if self.chance.random() < 0.4:
            self.coming.append(self.declared("type"))
        definitions = [self.definition() for _ in range(self.chance.choice([1, 2, 2, 3, 3, 4, 5, 6]))]
        definitions += [f"struct {name} {self.struct(name, 0)};" for name in self.coming]
        return "\n".join(definitions).encode() + b"\n"


def text_of(seed):
    """A text without a fault."""
    chance = random.Random(f"clashes {seed}")
    while True:
        text = Maker(chance).text()
        if not rpclang.Compilation(text).faults:
            return text


def kinds_met(compilation):
    """Of each clash of a text, the kind of name that C has, or the kinds of the two things."""
    return [other if isinstance(other, str) else " and ".join(sorted({thing.kind, other.kind}))
            for thing, other in clashes.meetings_of(compilation)]


def main(words):
    counts, clean = collections.Counter(), 0
    for k in range(int(words[0])):
        compilation = rpclang.Compilation(text_of(f"{words[1]}/{k}"))
        kinds = kinds_met(compilation)
        clean += not kinds
        counts.update(kinds)
    print(f"{words[0]} texts, {clean} without a clash")
    for kind, often in sorted(counts.items()):
        print(f"{often:6} {kind}")


if __name__ == "__main__":
    main(sys.argv[1:])
