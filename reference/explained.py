"""Faults as `rpcgen --explain` shows them: each with its sentence, its line of the text, a mark and what helps.
Names that the text leaves to C are told behind them."""
import functools

import rpclang

# What stands before the word, what comes after it (None where the word is not shown), and what helps.
SAYINGS = {
    10: ("unexpected '", "'", "a word may be misspelt, missing before it, or one too many"),
    11: ("unexpected character '", "'",
         "words are made of ASCII letters, digits and '_'; comments are written /* .. */"),
    12: ("invalid number '", "'", "write decimal digits, or 0x and hexadecimal, or 0 and octal ones; only decimals can be negative"),
    13: ("unterminated comment", None, "end it with */"),
    14: ("preprocessor directive", None, "run cpp first: rpcgen-cpp"),
    15: ("unexpected end of text after '", "'", "close each '{' with '}', and end the definition with ';'"),
    20: ("'", "' is declared already",
         "constants, enumerators, types and programs need different names; so do inline types"),
    21: ("undeclared name '", "'",
         "declare it first; a syntax fault hides all up to the next ';' outside braces"),
    22: ("'", "' is used before it is fully declared",
         "declare it first; only links to structs and unions, as in 'b *x' and 'b x<>', may come earlier"),
    25: ("the value of '", "' is out of range",
         "constants: -2^63 to 2^64-1; enumerators: -2^31 to 2^31-1; other numbers: 0 to 2^32-1"),
    26: ("invalid size '", "'", "a size is from 0 to 2^32-1, and that of an array in [ ] at least 1"),
    27: ("'", "' is not allowed here", "void is an arm of a union, the only argument, or a result"),
    28: ("array size must be at least 1", None, "an array in < > may be empty"),
    29: ("a discriminant must be a plain int, unsigned int, bool or enum", None, None),
    30: ("'", "' is not a value of the discriminant",
         "write an enumerator of its enum, TRUE or FALSE for a bool, or a number for an int"),
    31: ("duplicate case '", "'", None),
    32: ("duplicate member '", "'", None),
    33: ("duplicate number '", "'",
         "give each version of a program, and each procedure of a version, its own number"),
    34: ("types are nested too deeply at '", "'",
         "at most 32 types may hold one another by value; a link, as in 's *x', ends the chain"),
    36: ("expected the name of a type or a basic type, found '", "'",
         "declare the type of an argument or a result first, and name it here"),
    37: ("not checked further, '", "' has faults", None),
}
# The same of a name that is no type (23) or no constant (24), by what it is declared as.
NAME_A_TYPE = "name a type here; struct, union, enum and typedef declare types"
NO_TYPE = {
    None: ("expected a type, found '", "'", NAME_A_TYPE),
    "constant": ("expected a type, found constant '", "'", NAME_A_TYPE),
    "program": ("expected a type, found program '", "'", NAME_A_TYPE),
    "enum": ("'", "' is declared as an enum", "write enum before it, or no keyword"),
    "struct": ("'", "' is declared as a struct", "write struct before it, or no keyword"),
    "union": ("'", "' is declared as a union", "write union before it, or no keyword"),
    "typedef": ("'", "' is declared with typedef", "write no keyword before it"),
}
NAME_A_CONSTANT = "write a number, or the name of a constant or an enumerator"
NOTE = 37
# Types of C by their names there, each with the type here that has its values.
TYPES_OF_C = {name.encode(): here.encode() for here, names in {
    "int": "int32_t int16_t short",
    "unsigned int": "uint32_t u_int32_t uint16_t u_int16_t u_int uint u_short ushort",
    "unsigned long": "u_long ulong",
    "hyper": "int64_t longlong_t quad_t",
    "unsigned hyper": "uint64_t u_int64_t u_longlong_t u_quad_t",
    "bool": "bool_t boolean",
}.items() for name in names.split()}
# Something is suggested for so many undeclared words, by so many declared names, each of up to so many bytes.
MOST_WORDS, MOST_NAMES, LONGEST = 16, 1024, 64
LONGEST_LINE, BEFORE, AFTER = 100, 40, 60


def escaped(data, plain=False):
    """What is printable in ASCII, and tabs; `plain` lets all that is no ASCII be, too."""
    return b"".join(
        bytes([byte]) if byte == 9 or 32 <= byte <= 126 or plain and byte >= 128 else b"\\x%02x" % byte
        for byte in data)


def is_utf8(data):
    """That a terminal takes for no order: without control characters beyond ASCII."""
    try:
        return not any("\x80" <= character <= "\x9f" for character in data.decode("utf-8"))
    except UnicodeDecodeError:
        return False


def without_part(data):
    """Without the end of a character that is cut."""
    for _ in range(3):
        if data and 128 <= data[0] <= 191:
            data = data[1:]
    return data


def without_cut(data):
    """Without the front of a character that is cut."""
    try:
        data.decode("utf-8")
    except UnicodeDecodeError as error:
        if error.start >= AFTER - 3:
            return data[:error.start]
    return data


def columns(shown):
    """How many columns a shown text has, where bytes within a character have none."""
    return sum(1 for byte in shown if not 128 <= byte <= 191)


def room(shown):
    """As much room as a shown text takes, with its tabs."""
    return b"".join(b"\t" if byte == 9 else b" " for byte in shown if not 128 <= byte <= 191)


def token_text(compilation, fault):
    return compilation.items[fault.item][fault.token]


def name_of(compilation, fault):
    """The name that a fault is about: the word, or at a word that declares an inline type again and no other name,
    the whole name of that."""
    if fault.code == 20:
        here = [name for name in rpclang.declared(compilation.definitions[fault.item])
                if name.place == fault.token]
        if here[0].lifted:
            for name in here:
                first = compilation.own[name.name]
                if (first.item, first.place) != (fault.item, fault.token):
                    return name.name
    return token_text(compilation, fault).text


def first_declaration(path, compilation, fault):
    """As what the name is declared first, if that matters to the fault, and at which line and column of which
    file, unless that is the word itself: in a known file that has a place for it, or else in the text."""
    name = name_of(compilation, fault)
    if fault.code not in (20, 22, 23, 24):
        return None
    if name in compilation.known.places:
        return compilation.first[name].shape, compilation.known.places[name]
    if name not in compilation.own or compilation.own[name].item < 0:
        return None
    first = compilation.own[name]
    start = compilation.items[first.item][first.place].start
    if start == token_text(compilation, fault).start:
        return first.shape, None
    return first.shape, (path, *rpclang.line_and_column(compilation.text, start))


@functools.lru_cache(None)
def distance(word, name):
    """In how many steps the name is made of the word: a byte is put in, left out or replaced, or two neighbours are
    swapped, also apart, with what is put in or left out between them (Damerau and Levenshtein)."""
    if not word or not name:
        return len(word) + len(name)
    steps = [distance(word[:-1], name) + 1, distance(word, name[:-1]) + 1,
             distance(word[:-1], name[:-1]) + (word[-1] != name[-1])]
    # The last place before the end of each at which it has the last byte of the other.
    i, j = word[:-1].rfind(name[-1:]), name[:-1].rfind(word[-1:])
    if i >= 0 and j >= 0:
        steps.append(distance(word[:i], name[:j]) + (len(word) - i - 2) + 1 + (len(name) - j - 2))
    return min(steps)


def suggested(compilation, fault):
    """What an undeclared word may have been meant as: a type that C calls so, or the nearest name, if one is near."""
    unknown = [other for other in compilation.faults if other.code == 21]
    word = token_text(compilation, fault).text
    if fault not in unknown[:MOST_WORDS]:
        return None
    if word in TYPES_OF_C:
        return TYPES_OF_C[word]
    names = [name.name for definition in compilation.definitions if definition
             for name in rpclang.declared(definition)][:MOST_NAMES]
    near = [(distance(word, name), name) for name in names if max(len(word), len(name)) <= LONGEST]
    near = [pair for pair in near if 3 * pair[0] <= len(word)]
    return min(near, key=lambda pair: pair[0])[1] if near else None


def saying(compilation, fault):
    first = first_declaration(None, compilation, fault)
    kind = first and first[0]
    if fault.code == 23:
        return NO_TYPE[kind]
    if fault.code == 24:
        found = f"{kind} " if kind not in (None, "constant") else ""
        return f"expected a constant, found {found}'", "'", NAME_A_CONSTANT
    return SAYINGS[fault.code]


def headline(path, compilation, fault):
    front, rear, _ = saying(compilation, fault)
    said = front.encode()
    if rear is not None:
        said += escaped(name_of(compilation, fault)) + rear.encode()
    return b"%s:%d:%d: %d %s: %s\n" % (
        path, fault.line, fault.column, fault.code, rpclang.CODE_NAMES[fault.code].encode(), said)


def explained(path, compilation, fault):
    token = token_text(compilation, fault)
    line = compilation.text.split(b"\n")[fault.line - 1]
    front, rear = line[:fault.column - 1], line[fault.column - 1:]
    rear = rear.removesuffix(b"\r")
    before = after = b""
    if len(front) + len(rear) > LONGEST_LINE:
        if len(front) > BEFORE:
            before, front = b"...", without_part(front[-BEFORE:])
        if len(rear) > AFTER:
            after, rear = b"...", without_cut(rear[:AFTER])
    plain = is_utf8(front) and is_utf8(rear)
    number = b"%5d" % fault.line
    gutter = b" " * len(number)
    word = rear[:token.end - token.start]
    told = headline(path, compilation, fault)
    told += number + b" | " + before + escaped(front, plain) + escaped(rear, plain) + after + b"\n"
    told += gutter + b" | " + room(before + escaped(front, plain)) + b"^"
    told += b"~" * max(0, columns(escaped(word[:1], plain)) - 1) + b"~" * columns(escaped(word[1:], plain)) + b"\n"
    first = first_declaration(path, compilation, fault)
    if first and first[1]:
        told += gutter + b" | note: declared at %s:%d:%d\n" % first[1]
    help_text = saying(compilation, fault)[2]
    name = suggested(compilation, fault)
    if name is not None:
        told += gutter + b" | help: did you mean '" + name + b"'?\n"
    elif help_text is not None:
        told += gutter + b" | help: " + help_text.encode() + b"\n"
    return told


def taken_from_c(path, compilation, item, place):
    """That a name is C's, at its first mention."""
    token = compilation.items[item][place]
    at = rpclang.line_and_column(compilation.text, token.start)
    return b"%s:%d:%d: note: '%s' is taken from C\n" % (path, *at, token.text)


def counted(number, noun):
    return f"{number} {noun}" + ("" if number == 1 else "s")


def explanation(path, compilation):
    """The errors, then the faults that come of others and the foreign names, and how many there are."""
    errors = [fault for fault in compilation.faults if fault.code != NOTE]
    notes = [headline(path, compilation, fault) for fault in compilation.faults if fault.code == NOTE]
    notes += [taken_from_c(path, compilation, *at) for at in compilation.foreign]
    told = [explained(path, compilation, fault) for fault in errors] + notes
    summary = counted(len(errors), "error")
    if notes:
        summary += ", " + counted(len(notes), "note")
    return b"".join(told) + summary.encode() + b"\n"
