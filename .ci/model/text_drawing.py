"""Texts in Cedar's schema syntax, drawn at random: most are well formed, some aren't."""

import re

GAPS = [" ", " ", " ", "\n", "\t", "\r\n", "  ", "\u2028", "\xa0", "// note\n", "//\r"]
BARE = re.compile(r"[A-Za-z_][A-Za-z0-9_]*\Z")
STRANGE = ["::", ":", ",", ";", "?", "=", "<", ">", "[", "]", "{", "}", "(", ")", "@", "Set"]
STRANGE += ["in", "entity", "action", "type", "namespace", "external", "enum", "tags", "A"]
STRANGE += ["appliesTo", "principal", "context", "__cedar", '""', '"a"', "#", '"', '"\\q"', "'a'"]
WORDS = {"String": "String", "Long": "Long", "Boolean": "Bool"}


class Text:
    """The text of a document, as somebody may have written it: a list of tokens, and gaps."""

    def __init__(self, draws, document):
        self.draws, self.random, self.tokens = draws, draws.random, []
        for namespace, definition in document.items():
            if namespace:
                self.add(*self.annotations(), "namespace", namespace, "{")
            self.declarations(definition)
            if namespace:
                self.add("}")

    def add(self, *tokens):
        """Adds tokens at the end."""
        self.tokens += tokens

    def text(self):
        """The tokens with gaps between, of which one may be empty where no two tokens would be
        one."""
        found = self.gap("")
        for token in self.tokens:
            is_apart = self.draws.chance(0.3) and not (found[-1:] + token[:1]).strip(" \n")
            found += token if is_apart else self.gap(token)
        return found

    def gap(self, token):
        """A token with white space or a comment behind it."""
        return token + self.random.choice(GAPS)

    def quoted(self, text):
        """A text in quotes, with some of its characters escaped."""
        return '"' + "".join(map(self.escaped, text)) + '"'

    def escaped(self, letter):
        """A character of a text in quotes."""
        if letter in '"\\\r' or self.draws.chance(0.05):
            return f"\\u{{{ord(letter):x}}}"
        return f"\\x{ord(letter):02x}" if ord(letter) < 0x80 and self.draws.chance(0.05) else letter

    def name(self, name):
        """A name, bare or in quotes."""
        return name if BARE.match(name) and self.draws.chance(0.8) else self.quoted(name)

    def annotations(self):
        """Annotations, now and then."""
        if self.draws.chance(0.9):
            return []
        note = ["(", self.quoted("a note"), ")"] if self.draws.chance(0.5) else []
        return ["@", "doc", *note]

    def listed(self, items, is_bare=False):
        """Items in brackets with commas between, or one alone without."""
        if len(items) == 1 and is_bare and self.draws.chance(0.5):
            return items[0]
        found = ["["]
        for number, item in enumerate(items):
            found += [*item, ","] if number + 1 < len(items) else item
        return [*found, *([","] if items and self.draws.chance(0.3) else []), "]"]

    def declarations(self, definition):
        """The declarations of a definition."""
        for id, ty in definition.get("commonTypes", {}).items():
            self.add(*self.annotations(), "type", id, "=", *self.type(ty), ";")
        for id, body in definition["entityTypes"].items():
            self.add(*self.annotations(), *self.entity(id, body), ";")
        for id, body in definition["actions"].items():
            self.add(*self.annotations(), *self.action(id, body), ";")

    def entity(self, id, body):
        """An entity type."""
        found = ["external"] if body.get("external") else []
        found += ["entity", id]
        if "enum" in body:
            return [*found, "enum", *self.listed([[self.quoted(it)] for it in body["enum"]])]
        if body.get("memberOfTypes"):
            found += ["in", *self.paths(body["memberOfTypes"])]
        if body.get("shape", {}).get("type") == "Record":
            found += ["="] if self.draws.chance(0.5) else []
            found += self.type(body["shape"])
        return found + (["tags", *self.type(body["tags"])] if "tags" in body else [])

    def paths(self, names):
        """The names of entity types."""
        return self.listed([[name] for name in names], True)

    def action(self, id, body):
        """An action."""
        found = ["external"] if body.get("external") else []
        found += ["action", self.name(id)]
        if body.get("memberOf") is not None:
            found += ["in", *self.listed([self.parent(it) for it in body["memberOf"]], True)]
        if body.get("appliesTo") is not None:
            found += ["appliesTo", *self.requests(body["appliesTo"])]
        return found + (["attributes", "{", "}"] if self.draws.chance(0.1) else [])

    def parent(self, parent):
        """A parent of an action."""
        ty = parent.get("type")
        return [ty, "::", self.quoted(parent["id"])] if ty else [self.name(parent["id"])]

    def requests(self, requests):
        """The requests that an action is for."""
        said = [["principal", ":", *self.paths(requests["principalTypes"])]]
        said += [["resource", ":", *self.paths(requests["resourceTypes"])]]
        context = requests.get("context", {"type": "Set"})
        if context["type"] not in (*WORDS, "Set"):
            said += [["context", ":", *self.type(context)]]
        self.random.shuffle(said)
        return ["{", *self.listed(said)[1:-1], "}"]

    def type(self, ty):
        """A type."""
        word = ty["type"]
        if word == "Set":
            return ["Set", "<", *self.type(ty["element"]), ">"]
        if word == "Record":
            fields = [self.attribute(*field) for field in ty["attributes"].items()]
            return ["{", *self.listed(fields)[1:-1], "}"]
        return [WORDS.get(word, ty.get("name", word))]

    def attribute(self, name, ty):
        """An attribute of a record."""
        mark = [] if ty.get("required", True) else ["?"]
        return [*self.annotations(), self.name(name), *mark, ":", *self.type(ty)]

    def bend(self):
        """Changes the tokens in one place."""
        at = self.random.randrange(len(self.tokens) + 1)
        how = self.random.choice(["drop", "replace", "add", "double"])
        held = self.tokens[at : at + 1]
        new = {"drop": [], "double": held + held, "add": [self.random.choice(STRANGE), *held]}
        self.tokens[at : at + 1] = new.get(how, [self.random.choice(STRANGE)])
