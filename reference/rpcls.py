#!/usr/bin/env python3
"""What a language server of `.x` files says to a client's messages: LSP 3.17 read plainly. Each text is kept as
characters, and is compiled anew by rpclang.py, with blanks in place of the lines of cpp and with what comes
before it.

Of what is told to the user, and of errors, the kind and the number stand alone here, without a sentence, but with the
line that an error tells.

As a program, `rpcls.py [--known FILE].. [--c-types] [--foreign] [--fault-directives]` serves a client that
makes no mistakes and asks for nothing else.
"""
import bisect
import collections
import functools
import getopt
import itertools
import json
import os
import re
import sys
import urllib.parse

sys.dont_write_bytecode = True

import before
import clashes
import directives
import explained
import rpcedit
import rpclang
import texts

LINE_END = re.compile("\r\n|\r|\n")
# The line that the sentence of an error ends with.
LINE_TOLD = re.compile("in line [0-9]+$")
# What is told of a type's size, behind a definition.
SIZE_TOLD = re.compile("\n\n(at least )?[0-9]+ bytes, height(?= [0-9]+$)")
# How many lines are told of a definition at most.
MOST_TOLD = 20
INNER = bytes(range(0x80, 0xc0))
# A byte order mark.
MARK = "\ufeff".encode()
# How many units a character counts, by what a client and a server agree on.
WIDTHS = {"utf-8": lambda character: len(character.encode()), "utf-16": lambda character: 1 + (character > "\uffff")}
GREATEST_TEXT = 16_777_216
# Names that clash in C are looked for in texts up to this size.
GREATEST_WARNED = 262_144
# How many faults are published at most, where a client says no other number.
MOST = 1_000
INVALID_PARAMS = -32602
CONTENT_MODIFIED = -32801
REQUEST_FAILED = -32803
# The `SymbolKind` of a definition or a part of one, and the number of what a token is.
SYMBOL_KINDS = {"program": 2, "version": 3, "typedef": 5, "procedure": 6, "field": 8, "enum": 10, "constant": 14,
                "enumerator": 22, "struct": 23, "union": 23}
TOKEN_TYPES = {"Keyword": 0, "Comment": 1, "OpenComment": 1, "Number": 2, "Percent": 3, "Marker": 3, "Directive": 3,
               "typedef": 4, "struct": 5, "union": 5, "enum": 6, "constant": 7, "enumerator": 7, "program": 8,
               "version": 8, "procedure": 9, "field": 10}
CAPABILITIES = {"textDocumentSync": {"openClose": True, "change": 2}}
# Duplicate and RepeatedField.
TWICE = (20, 32)
# Duplicate, LateName, NotType, NotConst and UsesFaulty say how their word is declared.
OF_DECLARERS = (20, 22, 23, 24, 37)
UNREAD = "14 Directive: not read: both branches of #if are"


class Text:
    """A text, and its lines: where each starts, and where it stops, before its end."""

    def __init__(self, characters, encoding):
        self.characters = characters
        self.width = WIDTHS[encoding]
        ends = list(LINE_END.finditer(characters))
        self.starts = [0] + [end.end() for end in ends]
        self.stops = [end.start() for end in ends] + [len(characters)]
        self.bytes = characters.encode()

    def index(self, position):
        """The index of the character at a position: past a line's end that end, within a character that one,
        and past the last line the end of the text."""
        line, left = position["line"], position["character"]
        if line >= len(self.starts):
            return len(self.characters)
        for index in range(self.starts[line], self.stops[line]):
            left -= self.width(self.characters[index])
            if left < 0:
                return index
        return self.stops[line]

    def position(self, index):
        line = bisect.bisect_right(self.starts, index) - 1
        before = self.characters[self.starts[line]:min(index, self.stops[line])]
        return {"line": line, "character": sum(map(self.width, before))}

    def place(self, byte):
        """The position of a byte's place; within a character that behind it."""
        return self.position(len(self.bytes[:byte].translate(None, INNER)))

    def byte(self, position):
        return len(self.characters[:self.index(position)].encode())

    def range(self, token):
        return {"start": self.place(token.start), "end": self.place(token.end)}


class Refused(Exception):
    """A change that is not carried out."""


def changed(text, change, encoding):
    """The characters behind one change."""
    if change.get("range") is None:
        return change["text"]
    lines = Text(text, encoding)
    start, end = (lines.index(change["range"][side]) for side in ("start", "end"))
    if start > end:
        raise Refused
    return text[:start] + change["text"] + text[end:]


# ---------------------------------------------------------------- how a text is compiled

class Setting:
    """What is known before a text, whether C's types and other names are left to C, whether lines of cpp are
    blanked, whether names that clash in C are told, and how many faults are at most."""

    def __init__(self, known=rpclang.NOTHING, types=False, foreigners=False, blanks=True, warns=True, most=MOST):
        # A server keeps no places of known files.
        self.known = known._replace(places={})
        self.types, self.foreigners, self.blanks, self.warns, self.most = types, foreigners, blanks, warns, most

    def chosen(self, options):
        """What a client's `initializationOptions` make of it."""
        if not isinstance(options, dict):
            return self
        types, foreigners = options.get("cTypes"), options.get("foreign")
        way, warns, most = options.get("directives"), options.get("warnings"), options.get("most")
        is_number = isinstance(most, int) and not isinstance(most, bool)
        return Setting(
            self.known,
            types if isinstance(types, bool) else self.types,
            foreigners if isinstance(foreigners, bool) else self.foreigners,
            way == "blank" if way in ("blank", "fault") else self.blanks,
            warns if isinstance(warns, bool) else self.warns,
            most if is_number and 1 <= most < 1 << 64 else self.most)

    @functools.lru_cache(rpclang.KEPT_TEXTS)
    def compiled(self, text):
        """The compilation of a text: each place in it is one of the text. What `#define` gives as a number is a
        constant that stands before it."""
        known = self.known
        if self.blanks:
            if text.startswith(MARK):
                text = b"   " + text.removeprefix(MARK)
            constants = b"".join(b"const %s = %s;\n" % pair for pair in directives.defined(text))
            if constants:
                known = rpclang.Compilation(constants, known).known_behind(None)
            text = directives.blanked(text)
        return before.compiled(text, known, self.types, self.foreigners)


# ---------------------------------------------------------------- faults and names

def sentence(compilation, fault):
    """What is wrong at a token. One that is no UTF-8 is a byte that begins no word."""
    front, rear, _ = explained.saying(compilation, fault)
    if rear is None:
        return front
    name = explained.name_of(compilation, fault)
    try:
        said = front + name.decode() + rear
    except UnicodeDecodeError:
        said = front + explained.escaped(name[:1]).decode() + rear
    suggested = explained.suggested(compilation, fault)
    return said if suggested is None else f"{said}; did you mean '{suggested.decode()}'?"


def related(lines, uri, token, said):
    """What is told with a fault or a warning of another place that matters to it; nothing where there is none, or where
    the client shows none."""
    if uri is None or token is None:
        return {}
    return {"relatedInformation": [{"location": {"uri": uri, "range": lines.range(token)}, "message": said}]}


def declared_elsewhere(compilation, fault):
    """The token that declares the name of a fault first, if the fault says how that is declared; None where it is the
    fault's own."""
    if fault.code not in OF_DECLARERS:
        return None
    token = definition(compilation, explained.name_of(compilation, fault))
    return None if token == compilation.items[fault.item][fault.token] else token


def diagnostic(lines, uri, compilation, fault):
    token = compilation.items[fault.item][fault.token]
    name = rpclang.CODE_NAMES[fault.code]
    said = f"{fault.code} {name}: {sentence(compilation, fault)}"
    severity = 3 if fault.code == explained.NOTE else 1
    return {"code": fault.code, "message": said, "severity": severity, "source": "rpcgen", "range": lines.range(token),
            **related(lines, uri, declared_elsewhere(compilation, fault), "first declared here")}


def hint(lines, start, end):
    """What is told of a condition of cpp whose line is blanked."""
    return {"code": 14, "message": UNREAD, "severity": 4, "source": "rpcgen",
            "range": {"start": lines.place(start), "end": lines.place(end)}}


def is_of_branch(lines, compilation, fault):
    """Whether a fault tells what is declared again in another branch of cpp."""
    token = compilation.items[fault.item][fault.token]
    return fault.code in TWICE and directives.in_later_branch(lines.bytes, token.start)


def declaring(compilation, fault):
    """The item before that of a use of a faulty name which declares the name first; None where there is none."""
    if fault.code != explained.NOTE:
        return None
    first = compilation.own.get(compilation.items[fault.item][fault.token].text)
    return first.item if first is not None and 0 <= first.item < fault.item else None


def told_faults(lines, setting, compilation):
    """The faults that are told: where lines of cpp are blanked, not what is declared again in another branch, and
    no use of a name whose declarer has faults, but none that is told."""
    if not setting.blanks:
        return compilation.faults
    told, heard = [], {}
    for fault in compilation.faults:
        is_heard = heard.get(declaring(compilation, fault), True)
        is_told = is_heard and not is_of_branch(lines, compilation, fault)
        heard[fault.item] = heard.get(fault.item, False) or is_told
        told += [fault] if is_told else []
    return told


def chosen_faults(faults, most):
    """Those of the faults that are shown: the first errors, and as many notes of what follows from them as there is
    room for behind all errors."""
    errors = [index for index, fault in enumerate(faults) if fault.code != explained.NOTE]
    notes = [index for index, fault in enumerate(faults) if fault.code == explained.NOTE]
    return [faults[index] for index in sorted((errors + notes)[:most])]


def unshown(count):
    """What is told of so many faults that are not shown."""
    if not count:
        return []
    start = {"line": 0, "character": 0}
    said = "1 more fault is not shown" if count == 1 else f"{count} more faults are not shown"
    return [{"message": said, "severity": 3, "source": "rpcgen", "range": {"start": start, "end": start}}]


def foreign_hint(lines, token):
    """What is told of a foreign name at its first mention."""
    return {"code": 21, "message": f"21 Unknown: '{token.text.decode()}' is taken from C", "severity": 4, "source": "rpcgen",
            "range": lines.range(token)}


def warning(lines, uri, compilation, clash):
    """What is told of a name that clashes in C, with the line of the other thing as the client counts it, from 1."""
    other = None
    if isinstance(clash.other, str):
        said = clashes.SAID[clash.other]
    else:
        item, word = clash.other
        other = compilation.items[item][word]
        said = f"has two meanings in C; the other is in line {lines.place(other.start)['line'] + 1}"
    return {"message": f"'{clash.name.decode()}' {said}", "severity": 2, "source": "rpcgen",
            "range": lines.range(compilation.items[clash.item][clash.word]),
            **related(lines, uri, other, "the other one is here")}


def warnings(lines, uri, setting, compilation):
    if not setting.warns or compilation.faults or len(lines.bytes) > GREATEST_WARNED:
        return []
    return [warning(lines, uri, compilation, clash) for clash in clashes.clashes_of(compilation)]


def diagnostics(lines, uri, setting):
    """All that is published of a text, with other places of this document if the client shows them."""
    compilation = setting.compiled(lines.bytes)
    faults = told_faults(lines, setting, compilation)
    told = [diagnostic(lines, uri, compilation, fault) for fault in chosen_faults(faults, setting.most)]
    told += unshown(max(len(faults) - setting.most, 0))
    if setting.blanks:
        told += [hint(lines, *places) for places in directives.conditionals(lines.bytes)]
    told += [foreign_hint(lines, compilation.items[item][place]) for item, place in compilation.foreign]
    return told + warnings(lines, uri, setting, compilation)


def names_of(compilation):
    """Each word that declares or uses a name: its token, the name, and whether it declares it, and is it."""
    for item, definition in zip(compilation.items, compilation.definitions):
        if definition is not None:
            for name in rpclang.declared(definition):
                yield item[name.place], name.name, True
            for name in rpclang.mentioned(definition):
                yield item[name.place], name.name, False


def touches(token, byte):
    return token.start <= byte <= token.end


def name_word_at(compilation, byte):
    """The word of a name that holds a place, or ends there. That of an inline type is no word where it is declared."""
    return next((token for token, name, _ in names_of(compilation) if token.text == name and touches(token, byte)), None)


def name_at(compilation, byte):
    token = name_word_at(compilation, byte)
    return None if token is None else token.text


def unparsed(compilation):
    """The names in what does not parse, in the order of the text."""
    for item, definition in zip(compilation.items, compilation.definitions):
        if definition is None:
            yield from (token for token in item if token.kind == "Name")


def any_name_at(compilation, byte):
    """The name at a place; where no item that parses has one, that of a word in what does not parse."""
    words = (token.text for token in unparsed(compilation) if touches(token, byte))
    return name_at(compilation, byte) or next(words, None)


def standing(compilation, name, declared):
    """The tokens that use a name, and if asked for, those that declare it, in the order of the text."""
    found = {token for token, other, declares in names_of(compilation) if other == name and (declared or not declares)}
    return sorted(found, key=lambda token: token.start)


def definition(compilation, name):
    first = compilation.own.get(name)
    return None if first is None or first.item < 0 else compilation.items[first.item][first.place]


# ---------------------------------------------------------------- what is told of a word

def told_lines(text):
    lines = text.split(b"\n")
    return b"\n".join(lines[:MOST_TOLD]) + b"\n.." * (len(lines) > MOST_TOLD)


def begins_line(lines, token):
    return not re.split(b"[\r\n]", lines.bytes[:token.start])[-1].strip(b" \t")


def told_first(lines, item):
    """The first word of a definition, or the first of the comments directly in front of it: none of these has an empty
    line behind it, nor stands behind something else in its line, unless the line goes on up to the word."""
    line = lambda byte: lines.place(byte)["line"]
    lead = [token for token in itertools.takewhile(lambda token: token.kind in rpclang.PASSED_OVER, item)]
    word = item[len(lead)]
    lead = [token for token in lead if token.kind != "Space"]
    run = [word]
    while lead and lead[-1].kind == "Comment" and line(run[0].start) - line(lead[-1].end) <= 1:
        run.insert(0, lead.pop())
    while run[0] is not word and not begins_line(lines, run[0]):
        count = next((k for k in range(1, len(run)) if line(run[k].start) > line(run[k - 1].end)), len(run))
        if count == len(run):
            break
        run = run[count:]
    return run[0]


def meaning_told(compilation, name, first):
    """What a name means whose definition has no fault: the number of a constant or a program, the height of a type.
    Sizes of types are not told here."""
    if first.item in compilation.faulty or before.foreign_use(compilation, name) is not None:
        return ""
    definition, meaning = compilation.definitions[first.item], compilation.meanings[name]
    if isinstance(meaning, rpclang.Constant):
        return f"\n\n= {meaning.number}"
    if isinstance(definition, rpclang.Program):
        return f"\n\n= {rpclang.number_of(definition.number.text)}"
    return f"\n\nheight {meaning.height}"


# A part of a definition: the places of its first word, its name and its last, what it is, what it belongs to, and the word
# of its number, or None.
Part = collections.namedtuple("Part", "first name last told number")


def parts_in(item, types):
    """The enumerators and the fields of types that an item has."""
    words = [place for place, token in enumerate(item) if token.kind not in rpclang.PASSED_OVER]
    behind = lambda place: next(word for word in words if word >= place and item[word].text == b";")
    front = lambda place: words[words.index(place) - 1]
    field = lambda first, declared, last, told: Part(first, declared.name.place, last, told, None)
    for part in types:
        body, around = part.body, part.name.decode()
        pairs = []
        if isinstance(body, rpclang.EnumBody):
            for name, value in body.enumerators:
                yield Part(name.place, name.place, (value or name).place, f"enumerator of enum {around}", None)
        if isinstance(body, rpclang.StructBody):
            pairs = [(declared.first.place, declared) for declared in body.fields]
        if isinstance(body, rpclang.UnionBody):
            pairs = [(front(arm.values[0].place), arm.declaration) for arm in body.arms]
            if body.default is not None:
                pairs.append((front(front(body.default.first.place)), body.default))
            if body.discriminant.name is not None:
                first, last = body.discriminant.first.place, front(body.closing.place)
                yield field(first, body.discriminant, last, f"field of union {around}")
        word = "union" if isinstance(body, rpclang.UnionBody) else "struct"
        for first, declared in pairs:
            if declared.name is not None:
                yield field(first, declared, behind(declared.name.place), f"field of {word} {around}")


def parts_of(item, definition):
    """The enumerators, the fields, the versions and the procedures of a definition."""
    words = [place for place, token in enumerate(item) if token.kind not in rpclang.PASSED_OVER]
    behind = lambda place: next(word for word in words if word >= place and item[word].text == b";")
    yield from parts_in(item, rpclang.parts_of(definition))
    for version in definition.versions if isinstance(definition, rpclang.Program) else []:
        front = lambda place: words[words.index(place) - 1]
        told = f"version of program {definition.name.text.decode()}"
        yield Part(front(version.name.place), version.name.place, behind(version.number.place), told, version.number)
        for it in version.procedures:
            told = f"procedure of version {version.name.text.decode()}"
            yield Part(it.result.first.place, it.name.place, behind(it.number.place), told, it.number)


def part_at(compilation, byte):
    """The item and the part of it whose name stands at a place, or None."""
    for at, (item, definition) in enumerate(zip(compilation.items, compilation.definitions)):
        if definition is not None and any(touches(token, byte) for token in item if token.kind == "Name"):
            found = [part for part in parts_of(item, definition) if touches(item[part.name], byte)]
            return (at, found[0]) if found else None
    return None


def told_of_part(compilation, at, part):
    item = compilation.items[at]
    told = told_lines(compilation.text[item[part.first].start:item[part.last].end]).decode(errors="replace")
    number = ""
    if part.number is not None and at not in compilation.faulty:
        number = f"\n= {rpclang.number_of(part.number.text)}"
    return f"{told}\n\n{part.told}{number}"


def hover(compilation, lines, byte):
    """What is told of the name at a place, or of the part of a definition there."""
    token = name_word_at(compilation, byte)
    first = compilation.own.get(token.text) if token else None
    if first is not None and first.item >= 0:
        item = compilation.items[first.item]
        end = [word for word in item if word.kind not in rpclang.PASSED_OVER][-1].end
        told = told_lines(compilation.text[told_first(lines, item).start:end]).decode(errors="replace")
        told += meaning_told(compilation, token.text, first)
    else:
        found = part_at(compilation, byte)
        if found is None:
            return None
        token, told = compilation.items[found[0]][found[1].name], told_of_part(compilation, *found)
    return {"contents": {"kind": "plaintext", "value": told}, "range": lines.range(token)}


# ---------------------------------------------------------------- what a document contains

def shape_of(definition):
    """What a definition defines."""
    if isinstance(definition, (rpclang.Const, rpclang.Program)):
        return "constant" if isinstance(definition, rpclang.Const) else "program"
    return "typedef" if isinstance(definition, rpclang.Typedef) else rpclang.shape_of(definition.body)


def parts_and_whole(item, definition):
    """The parts of a definition and the definition itself, if it has a name, those first that others stand in."""
    own = rpclang.own_name(definition)
    if own is None:
        return []
    words = [place for place, token in enumerate(item) if token.kind not in rpclang.PASSED_OVER]
    whole = Part(words[0], own.place, words[-1], shape_of(definition), None)
    # Inline types that are written as results, which are a fault.
    results = [part for version in getattr(definition, "versions", []) for it in version.procedures
               if rpclang.is_inline(it.result)
               for part in [*rpclang.lifted_parts(b"", it.result.body), rpclang.Part(b"", it.name, it.result.body, True)]]
    return sorted([whole, *parts_of(item, definition), *parts_in(item, results)], key=lambda part: (part.first, -part.last))


def symbols(lines, compilation):
    """The definitions of a text, each with its parts where they stand in one another."""
    top = []
    for item, definition in zip(compilation.items, compilation.definitions):
        around = []
        for part in parts_and_whole(item, definition) if definition is not None else []:
            while around and around[-1][0].last < part.first:
                around.pop()
            symbol = {
                "name": item[part.name].text.decode(), "kind": SYMBOL_KINDS[part.told.split()[0]], "children": [],
                "range": {"start": lines.place(item[part.first].start), "end": lines.place(item[part.last].end)},
                "selectionRange": lines.range(item[part.name])}
            (around[-1][1]["children"] if around else top).append(symbol)
            around.append((part, symbol))
    return top


def folds(lines, compilation):
    """Comments of several lines, what stands between braces in several lines, and lines behind one another that pass through."""
    found, braces, run = [], [], []
    fold = lambda first, last, **more: found.append({"startLine": first, "endLine": last} | more) if first < last else None
    for token in [*(token for token in compilation.tokens if token.kind != "Space"), None]:
        first, last = [lines.place(byte)["line"] for byte in (token.start, token.end)] if token else (None, None)
        if token and token.kind == "Percent" and run[-1:] == [first - 1]:
            run.append(last)
            continue
        if run:
            fold(run[0], run[-1])
        run = [first, last] if token and token.kind == "Percent" else []
        if token and token.kind in ("Comment", "OpenComment"):
            fold(first, last, kind="comment")
        if token and (token.kind, token.text) == ("Punct", b"{"):
            braces.append(first)
        if token and (token.kind, token.text) == ("Punct", b"}") and braces:
            opened = braces.pop()
            fold(opened, first - 1 if first - 1 > opened else first)
    return found


def type_of_name(compilation, name):
    """What a name is that is used: what declares it first."""
    first = compilation.own.get(name)
    if name in (b"TRUE", b"FALSE"):
        return "constant"
    return None if first is None or first.item < 0 else first.shape


def typed_tokens(compilation):
    """Each token with what it is, or None."""
    for item, definition in zip(compilation.items, compilation.definitions):
        told = [token.kind for token in item]
        for mention in rpclang.mentioned(definition) if definition is not None else []:
            told[mention.place] = type_of_name(compilation, mention.name)
        for part in parts_and_whole(item, definition) if definition is not None else []:
            told[part.name] = part.told.split()[0]
        if definition is None:
            told = [type_of_name(compilation, token.text) if token.kind == "Name" else token.kind for token in item]
        yield from zip(item, map(TOKEN_TYPES.get, told))


def token_numbers(lines, compilation):
    """What each token is: of what stands of it in a line the lines and the characters from the one before, its units, its
    type, and that it has no modifier."""
    index = lambda byte: len(lines.bytes[:byte].translate(None, INNER))
    numbers, before = [], {"line": 0, "character": 0}
    for token, told in typed_tokens(compilation):
        start, end = index(token.start), index(token.end)
        for line in range(bisect.bisect_right(lines.starts, start) - 1, len(lines.starts)) if told is not None else []:
            first, stop = max(start, lines.starts[line]), min(end, lines.stops[line])
            units = sum(map(lines.width, lines.characters[first:stop]))
            if lines.starts[line] > end:
                break
            if units:
                at = lines.position(first)
                same = at["line"] == before["line"]
                numbers += [at["line"] - before["line"], at["character"] - same * before["character"], units, told, 0]
                before = at
    return {"data": numbers}


def written(compilation, uri, which):
    """A generated text, or the faults, one a line."""
    if which == "faults":
        return "".join(f"{fault.line}:{fault.column} {fault.code} {rpclang.CODE_NAMES[fault.code]}\n"
                       for fault in compilation.faults)
    return texts.text_of(which, rpcedit.base_of(name_of(uri)), compilation).decode(errors="replace")


# ---------------------------------------------------------------- the server

def name_of(uri):
    """The bytes that a document's URI stands for, escapes read: two spellings of one document have one name."""
    return urllib.parse.unquote_to_bytes(uri)


class Document:
    """A document that is open. It is in step where no change was refused, or not understood, since it was sent whole."""

    def __init__(self, uri, version, text):
        self.uri, self.version, self.text = uri, version, text
        self.in_step = True


def note(method, params):
    return {"jsonrpc": "2.0", "method": method, "params": params}


SHOWN = note("window/showMessage", {"type": 1, "message": ""})


class Server:
    """Says what is said to one message after another."""

    def __init__(self, encoding, setting=Setting(), shows_related=False):
        self.encoding, self.setting, self.shows_related = encoding, setting, shows_related
        # By their URIs as they were opened.
        self.documents = {}

    def document(self, uri):
        """The open document of a URI, however that is spelled."""
        return next((document for document in self.documents.values() if name_of(document.uri) == name_of(uri)), None)

    def forget(self, uri):
        document = self.document(uri)
        if document is not None:
            del self.documents[document.uri]
        return document

    def reply(self, message):
        """What is said to a message behind `initialize`; None where nothing is."""
        method, params = message["method"], message.get("params")
        kind, _, name = method.partition("/")
        if kind not in ("textDocument", "rpcgen"):
            return None
        uri = params["textDocument"]["uri"]
        if "id" in message:
            return self.answer(message["id"], name, uri, params)
        return {"didOpen": self.open, "didChange": self.change, "didClose": self.close}[name](uri, params)

    def published(self, document):
        return note("textDocument/publishDiagnostics", {
            "uri": document.uri, "version": document.version,
            "diagnostics": diagnostics(Text(document.text, self.encoding), document.uri if self.shows_related else None,
                                       self.setting)})

    def open(self, uri, params):
        document = params["textDocument"]
        if len(document["text"].encode()) > GREATEST_TEXT:
            if self.document(uri) is None:
                self.documents[uri] = Document(uri, 0, "")
            self.document(uri).in_step = False
            return SHOWN
        self.forget(uri)
        self.documents[uri] = Document(uri, document["version"], document["text"])
        return self.published(self.documents[uri])

    def change(self, uri, params):
        document = self.document(uri)
        if document is None:
            return None
        was_in_step, document.in_step = document.in_step, False
        version, changes = params["textDocument"].get("version", ""), params["contentChanges"]
        if not isinstance(version, int | None) or not isinstance(changes, list):
            return SHOWN if was_in_step else None
        if not was_in_step and (not changes or changes[0].get("range") is not None):
            return None
        for change in changes:
            try:
                document.text = changed(document.text, change, self.encoding)
            except Refused:
                return SHOWN if was_in_step else None
        document.in_step = True
        document.version = document.version if version is None else version
        return self.published(document)

    def close(self, uri, _):
        document = self.forget(uri)
        if document is None:
            return None
        return note("textDocument/publishDiagnostics", {"uri": document.uri, "diagnostics": []})

    def answer(self, number, name, uri, params):
        said = {"jsonrpc": "2.0", "id": number}
        document = self.document(uri)
        if document is not None and not document.in_step:
            return said | {"error": {"code": CONTENT_MODIFIED, "message": ""}}
        if document is None or name == "text" and params["which"] not in ["faults", *texts.KINDS]:
            return said | {"error": {"code": INVALID_PARAMS, "message": ""}}
        lines = Text(document.text, self.encoding)
        compilation = self.setting.compiled(lines.bytes)
        if name == "references":
            sought = any_name_at(compilation, lines.byte(params["position"]))
            first = next((token for token in unparsed(compilation) if token.text == sought), None)
            if first is not None:
                line = lines.place(first.start)["line"] + 1
                return said | {"error": {"code": REQUEST_FAILED, "message": f"in line {line}"}}
        return said | {"result": self.found(lines, compilation, name, document.uri, params)}

    def found(self, lines, compilation, name, uri, params):
        if name == "text":
            return written(compilation, uri, params["which"])
        if name in ("documentSymbol", "foldingRange", "semanticTokens/full"):
            return {"documentSymbol": symbols, "foldingRange": folds}.get(name, token_numbers)(lines, compilation)
        if name == "hover":
            return hover(compilation, lines, lines.byte(params["position"]))
        sought = name_at(compilation, lines.byte(params["position"]))
        if name == "definition":
            token = definition(compilation, sought)
            return token and {"uri": uri, "range": lines.range(token)}
        if name == "documentHighlight":
            return [{"range": lines.range(token)} for token in standing(compilation, sought, True)]
        tokens = standing(compilation, sought, params["context"]["includeDeclaration"])
        return [{"uri": uri, "range": lines.range(token)} for token in tokens]


def without_sentences(said):
    """What a server said, as it is said here: of errors and of what is told to the user no sentence, but a line, and of
    types no size."""
    params, result = said.get("params", {}), said.get("result")
    if isinstance(result, dict) and "contents" in result:
        result["contents"]["value"] = SIZE_TOLD.sub("\n\nheight", result["contents"]["value"])
    if "error" in said:
        said["error"]["message"] = "".join(LINE_TOLD.findall(said["error"]["message"]))
    if said.get("method") == "window/showMessage":
        params["message"] = ""
    return said


# ---------------------------------------------------------------- the program

def messages_from(file):
    """The messages of a stream, each once it is there."""
    while head := file.readline():
        length = int(head.removeprefix(b"Content-Length: "))
        file.readline()
        yield json.loads(file.read(length))


def begun(setting, params):
    """The server that `initialize` with these parameters begins."""
    offered = params["capabilities"].get("general", {}).get("positionEncodings", [])
    encoding = "utf-8" if "utf-8" in offered else "utf-16"
    shown = params["capabilities"].get("textDocument", {}).get("publishDiagnostics", {})
    return Server(encoding, setting.chosen(params.get("initializationOptions")), shown.get("relatedInformation", False))


def answers(setting, messages):
    """All that is said to a client that begins with `initialize` and ends with `exit`."""
    server = None
    for message in messages:
        said = {"jsonrpc": "2.0", "id": message.get("id"), "result": None}
        if message["method"] == "initialize":
            server = begun(setting, message["params"])
            yield said | {"result": {"capabilities": CAPABILITIES | {"positionEncoding": server.encoding}}}
        elif message["method"] == "shutdown":
            yield said
        elif message["method"] == "exit":
            return
        elif reply := server.reply(message):
            yield reply


def setting_of(words):
    """The setting that the words of a command line ask for."""
    options, _ = getopt.getopt(words, "", ["known=", "c-types", "foreign", "fault-directives"])
    names = [name for name, value in options]
    from_c = "--c-types" in names, "--foreign" in names
    files = ((path, rpcedit.read_whole(path)) for name, path in options if name == "--known")
    return Setting(before.known_of(files, *from_c), *from_c, "--fault-directives" not in names)


def main(words):
    try:
        setting = setting_of(words)
    except before.Faulty as faulty:
        os.write(2, before.told_faults(*faulty.args))
        return 1
    except rpcedit.Stop as reason:
        sys.stderr.write(f"rpcls: {reason.args[1]}\n")
        return 2
    for said in answers(setting, messages_from(sys.stdin.buffer)):
        body = json.dumps(said, ensure_ascii=False, sort_keys=True, separators=(",", ":")).encode()
        sys.stdout.buffer.write(b"Content-Length: %d\r\n\r\n%s" % (len(body), body))
        sys.stdout.buffer.flush()
    return 0


if __name__ == "__main__":
    sys.exit(main(sys.argv[1:]))
