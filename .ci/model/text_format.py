"""Which texts are in Cedar's schema syntax, and which document each stands for.

The rules are put down here once more, from Cedar's reference. What a text stands for is a document
as `declared` takes it, where a context that a name stands for is `{"common": NAME}`."""

import re

from .format import RESERVED, is_common

WHITE = "\t\n\v\f\r \x85\xa0\u1680" + "".join(map(chr, range(0x2000, 0x200B)))
WHITE += "\u2028\u2029\u202f\u205f\u3000"
LETTERS = {"n": "\n", "r": "\r", "t": "\t", "0": "\0", "\\": "\\", '"': '"', "'": "'"}
PIECE = re.compile(
    rf"""(?P<gap>[{WHITE}]|//[^\n\r]*)
    |(?P<id>[A-Za-z_][A-Za-z0-9_]*)
    |(?P<text>"(?:[^"\\\r]|\\[nrt0\\"']|\\x[0-7][0-9A-Fa-f]|\\u\{{[0-9A-Fa-f]{{1,6}}\}})*")
    |(?P<symbol>::|[:,;?=<>\[\]{{}}()@])""",
    re.VERBOSE,
)
ESCAPE = re.compile(r"\\(?:x(..)|u\{([0-9A-Fa-f]+)\}|(.))", re.DOTALL)
LEVELS = 128
EMPTY = {"type": "Record", "attributes": {}}


class Refused(Exception):
    """Why a text isn't in the syntax: the kind of refusal."""


def character(escape):
    """The character that an escape stands for."""
    short, long, letter = escape.groups()
    if letter is not None:
        return LETTERS[letter]
    code = int(short or long, 16)
    if code > 0x10FFFF or 0xD800 <= code < 0xE000:
        raise Refused("BadEscape")
    return chr(code)


def tokens(text):
    """The tokens of a text, each with its kind: `id`, `text` or `symbol`."""
    found, at = [], 0
    while at < len(text):
        piece = PIECE.match(text, at)
        if piece is None:
            raise Refused("no token")
        at, kind, held = piece.end(), piece.lastgroup, piece.group()
        if kind == "text":
            held = ESCAPE.sub(character, held[1:-1])
        if kind != "gap":
            found.append((kind, held))
    return found


def put(entries, name, held):
    """Puts something under a name that nothing stands under yet."""
    if name in entries:
        raise Refused("Twice")
    entries[name] = held


class Reader:
    """Reads a document from tokens."""

    def __init__(self, text):
        self.tokens, self.at = tokens(text), 0
        self.document = {}

    def sees(self, *words, ahead=0):
        """Whether the next token is one of these words or symbols."""
        at = self.at + ahead
        kind, held = self.tokens[at] if at < len(self.tokens) else ("end", "")
        return kind != "text" and held in words

    def skips(self, word):
        """Goes past a word or a symbol, if it stands here."""
        is_here = self.sees(word)
        self.at += is_here
        return is_here

    def skip(self, word):
        """Goes past a word or a symbol, which has to stand here."""
        if not self.skips(word):
            raise Refused("Unexpected")

    def take(self, *kinds):
        """What the next token holds, which has to be of one of these kinds."""
        kind, held = self.tokens[self.at] if self.at < len(self.tokens) else ("end", "")
        if kind not in kinds:
            raise Refused("Unexpected")
        self.at += 1
        return held

    def separated(self, read):
        """One or more things with commas between."""
        found = [read()]
        while self.skips(","):
            found.append(read())
        return found

    def until(self, end, read, least=0):
        """Things with commas between and perhaps one behind, up to a symbol."""
        found = []
        while len(found) < least or not self.sees(end):
            found.append(read())
            if not self.skips(","):
                break
        self.skip(end)
        return found

    def one_or_listed(self, read):
        """One thing alone, or any number in brackets."""
        return self.until("]", read) if self.skips("[") else [read()]

    def id(self):
        """An id."""
        return self.take("id")

    def text(self):
        """A quoted text."""
        return self.take("text")

    def name(self):
        """An id or a quoted text."""
        return self.take("id", "text")

    def path(self):
        """Ids with `::` between."""
        found = [self.id()]
        while self.sees("::") and self.at + 1 < len(self.tokens) and self.kind(1) == "id":
            self.at += 1
            found.append(self.id())
        return "::".join(found)

    def kind(self, ahead):
        """The kind of a token further on."""
        return self.tokens[self.at + ahead][0]

    def annotations(self):
        """Any number of annotations, of which none stands twice."""
        keys = {}
        while self.skips("@"):
            put(keys, self.id(), None)
            if self.skips("("):
                self.text()
                self.skip(")")

    def schema(self):
        """The document of the whole text."""
        while self.at < len(self.tokens):
            self.annotations()
            if self.sees("namespace"):
                self.block()
            else:
                self.declaration("")
        return self.document

    def block(self):
        """A namespace with its declarations."""
        self.skip("namespace")
        namespace = self.path()
        if RESERVED in namespace.split("::"):
            raise Refused("Reserved")
        put(self.document, namespace, definition())
        self.skip("{")
        while not self.skips("}"):
            self.annotations()
            self.declaration(namespace)

    def declaration(self, namespace):
        """A declaration."""
        declared = self.document.setdefault(namespace, definition())
        is_external = self.skips("external")
        if self.skips("entity"):
            self.entity(declared["entityTypes"], is_external)
        elif self.skips("action"):
            self.action(declared["actions"], is_external)
        elif not is_external and self.skips("type"):
            self.common(declared["commonTypes"])
        else:
            raise Refused("Unexpected")
        self.skip(";")

    def common(self, declared):
        """A common type."""
        id = self.id()
        if not is_common(id):
            raise Refused("Reserved")
        self.skip("=")
        put(declared, id, self.type())

    def entity(self, declared, is_external):
        """Entity types."""
        ids = self.separated(self.id)
        if RESERVED in ids:
            raise Refused("Reserved")
        body = {"external": True} if is_external else {}
        if self.skips("enum"):
            self.skip("[")
            body["enum"] = self.until("]", self.text, 1)
        else:
            body["memberOfTypes"] = self.one_or_listed(self.path) if self.skips("in") else []
            if self.skips("=") or self.sees("{"):
                body["shape"] = self.record(0)
            if self.skips("tags"):
                body["tags"] = self.type()
        for id in ids:
            put(declared, id, body)

    def action(self, declared, is_external):
        """Actions."""
        ids = self.separated(self.name)
        body = {"external": True} if is_external else {}
        if self.skips("in"):
            body["memberOf"] = self.one_or_listed(self.parent)
        if self.skips("appliesTo"):
            body["appliesTo"] = self.requests()
        if self.skips("attributes"):
            self.skip("{")
            self.skip("}")
        for id in ids:
            put(declared, id, body)

    def parent(self):
        """A parent of an action: its id, perhaps behind its type."""
        if self.kind(0) == "id" and self.sees("::", ahead=1):
            ty = self.path()
            self.skip("::")
            return {"id": self.text(), "type": ty}
        return {"id": self.name()}

    def requests(self):
        """The requests that an action is for."""
        self.skip("{")
        said = {}
        for name, held in self.until("}", self.part, 1):
            put(said, name, held)
        if not {"principalTypes", "resourceTypes"} <= set(said):
            raise Refused("Missing")
        return said

    def part(self):
        """The principals, the resources or the context of requests."""
        word = self.take("id")
        self.skip(":")
        if word in ("principal", "resource"):
            return f"{word}Types", self.one_or_listed(self.path)
        if word != "context":
            raise Refused("Unexpected")
        return word, self.record(0) if self.sees("{") else {"common": self.path()}

    def type(self, level=0):
        """A type, that many levels deep."""
        if self.sees("{"):
            return self.record(level)
        if self.sees("Set") and self.sees("<", ahead=1):
            self.at += 2
            deeper(level)
            element = self.type(level + 1)
            self.skip(">")
            return {"type": "Set", "element": element}
        return {"type": "EntityOrCommon", "name": self.path()}

    def record(self, level):
        """A record type, that many levels deep."""
        self.skip("{")
        deeper(level)
        attributes = {}
        for name, ty in self.until("}", lambda: self.attribute(level + 1)):
            put(attributes, name, ty)
        return {"type": "Record", "attributes": attributes}

    def attribute(self, level):
        """An attribute of a record, with its name."""
        self.annotations()
        name = self.name()
        is_optional = self.skips("?")
        self.skip(":")
        ty = self.type(level)
        return name, {**ty, "required": False} if is_optional else ty


def deeper(level):
    """Refuses a type at the last level that there is."""
    if level >= LEVELS:
        raise Refused("TooDeep")


def definition():
    """A definition without declarations."""
    return {"commonTypes": {}, "entityTypes": {}, "actions": {}}


def document_of(text):
    """The document that a text stands for, or None where it isn't in the syntax."""
    try:
        return Reader(text).schema()
    except Refused:
        return None
