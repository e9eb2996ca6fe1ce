"""Documents in Cedar's JSON schema format, drawn at random: most are well formed, some aren't."""

import copy
import random

from .declared import BUILT_IN, EXTENSIONS, within

NAMESPACES = [["", "N"], ["N"], ["N", "M"], ["", "N", "M", "N::M"], [""]]
STRANGE = "String Bool __cedar::String __cedar::Nope Action N::Action Zzz __cedar N::A".split()
VALUES = [None, True, 0, 1.5, -(2**63), 2**63, "", "A", "A::B", "__cedar", "__cedar::A", "a b"]
VALUES += ["9x", "é", [], [1], ["A"], [""], {}, {"a": None}, {"note": "x"}, {"a b": ""}]
VALUES += [{"__entity": {"type": "A", "id": "x"}}, {"__extn": {"fn": "ip", "arg": "x"}}]
VALUES += [{"type": "String"}, {"type": "Set"}, {"type": "Record", "attributes": {}}]
FIELDS = {"entity": "entityTypes", "common": "commonTypes", "action": "actions"}
FORMS = "plain plain entity either common extension set record".split()
KEYS = "enum external annotations type element attributes required shape tags id name x".split()
KEYS += "memberOf memberOfTypes appliesTo principalTypes context additionalAttributes".split()
KEYS += ["commonTypes", "entityTypes", "__cedar", "String", "A::B", ""]


class Drawing:
    """What is drawn from a seed."""

    def __init__(self, seed):
        self.random = random.Random(seed)
        self.names, self.namespace = {}, ""

    def chance(self, part):
        """Yes, in such a part of all draws."""
        return self.random.random() < part

    def some(self, items, most):
        """Some of the items."""
        return self.random.sample(items, self.random.randint(0, min(most, len(items))))

    def several(self, most, draw):
        """Several of what is drawn."""
        return [draw() for _ in range(self.random.randint(0, most))]

    def documents(self):
        """Documents whose declarations know of each other, now and then of something else."""
        namespaces = self.random.choice(NAMESPACES)
        self.names = {"entity": [], "common": [], "action": []}
        for number, namespace in enumerate(namespaces):
            letters = ["E", "F", "String", "ipaddr"] if self.chance(0.3) else list("ABCD")
            ids = [f"{it}{'' if self.chance(0.15) else number}" for it in letters]
            actions = [f"{it}{'' if self.chance(0.05) else number}" for it in "uvw"]
            for kind, its in (("entity", ids), ("common", ids), ("action", actions)):
                self.names[kind] += [(namespace, id) for id in self.some(its, 3)]
            if self.chance(0.01):
                self.names["entity"].append((namespace, "Action"))
        documents = [{} for _ in range(self.random.randint(1, 3))]
        for kind, names in self.names.items():
            for at, (namespace, id) in enumerate(names):
                for again in [False, True] if self.chance(0.1) else [False]:
                    body = self.body(kind, at, namespace)
                    if again and kind != "common" and self.chance(0.8):
                        body["external"] = True
                    declare(self.random.choice(documents), kind, namespace, id, body)
        return documents

    def body(self, kind, at, namespace):
        """A declaration in a namespace. Common types and actions know mostly of those before."""
        self.namespace, all_names = namespace, self.names
        if self.chance(0.95) and kind != "entity":
            self.names = {**all_names, kind: all_names[kind][:at]}
        draw = {"entity": self.entity_type, "common": lambda: self.type(2), "action": self.action}
        body, self.names = draw[kind](), all_names
        return body

    def name(self, kind):
        """The name of something of a kind, as it may be written in the namespace."""
        if self.chance(0.015) or not self.names[kind]:
            return self.random.choice(STRANGE if kind == "entity" else BUILT_IN)
        namespace, id = self.random.choice(self.names[kind])
        return id if namespace == self.namespace and self.chance(0.6) else within(namespace, id)

    def type(self, depth):
        """A type, nested no deeper than so."""
        form = self.random.choice(FORMS)
        if form == "entity":
            return {"type": "Entity", "name": self.name("entity")}
        if form == "either":
            kind = self.random.choice(["entity", "common"])
            return {"type": "EntityOrCommon", "name": self.name(kind)}
        if form == "common":
            return {"type": self.name("common")}
        if form == "extension":
            names = ["nosuch"] if self.chance(0.01) else EXTENSIONS
            return {"type": "Extension", "name": self.random.choice(names)}
        if form == "set" and depth > 0:
            return {"type": "Set", "element": self.type(depth - 1)}
        if form == "record" and depth > 0:
            return self.record(depth - 1)
        return {"type": self.random.choice(["String", "Long", "Boolean"])}

    def record(self, depth):
        """A record type."""
        attributes = {id: self.attribute(depth) for id in self.some(list("abcdef"), 3)}
        ty = {"type": "Record", "attributes": attributes}
        if self.chance(0.02):
            ty["additionalAttributes"] = self.chance(0.5)
        return ty

    def attribute(self, depth):
        """An attribute of a record."""
        return {**self.type(depth), **({"required": self.chance(0.5)} if self.chance(0.4) else {})}

    def shape(self):
        """A shape or a context, mostly of records."""
        return self.record(2) if self.chance(0.97) else self.type(1)

    def entity_type(self):
        """The declaration of an entity type."""
        if self.chance(0.12):
            return {"enum": [self.random.choice("xyz") for _ in range(self.random.randint(1, 3))]}
        fields = {
            "memberOfTypes": lambda: self.several(2, lambda: self.name("entity")),
            "shape": self.shape,
            "tags": lambda: self.type(1),
            "external": lambda: self.chance(0.8),
        }
        parts = {"memberOfTypes": 0.6, "shape": 0.6, "tags": 0.2, "external": 0.1}
        return {field: fields[field]() for field, part in parts.items() if self.chance(part)}

    def action(self):
        """The declaration of an action."""
        body = {}
        if self.chance(0.7):
            body["appliesTo"] = requests = {}
            for field in ("principalTypes", "resourceTypes"):
                requests[field] = self.several(3, lambda: self.name("entity"))
            if self.chance(0.6):
                requests["context"] = self.shape()
        if self.names["action"] and self.chance(0.6):
            body["memberOf"] = self.several(2, self.parent)
        if self.chance(0.01):
            body["attributes"] = {}
        if self.chance(0.08):
            body["external"] = True
        for field in ("appliesTo", "memberOf"):
            if field not in body and self.chance(0.1):
                body[field] = None
        return body

    def parent(self):
        """A parent of an action."""
        namespace, id = self.random.choice(self.names["action"])
        if self.chance(0.03):
            return {"id": "nosuch"}
        if namespace == self.namespace and self.chance(0.5):
            return {"id": id, "type": None} if self.chance(0.2) else {"id": id}
        return {"id": id, "type": within(namespace, "Action")}

    def complete(self):
        """Documents that leave nothing external."""
        documents = self.documents()
        for body in (body for definition in definitions(documents) for body in bodies(definition)):
            body.pop("external", None)
        return documents

    def next_version(self, documents):
        """Other documents, much like some."""
        documents = copy.deepcopy(documents)
        for definition in definitions(documents):
            for declared in (definition["entityTypes"], definition["actions"]):
                for id in [id for id in declared if self.chance(0.07)]:
                    del declared[id]
            for id in [id for id in definition["entityTypes"] if self.chance(0.05)]:
                bodies_drawn = [{}, {"enum": ["x"]}, {"enum": ["y", "z"]}]
                definition["entityTypes"][id] = self.random.choice(bodies_drawn)
            for body in definition["entityTypes"].values():
                self.shorten(body, "memberOfTypes")
                self.change(body.get("shape", {}).get("attributes", {}))
                if self.chance(0.1) and "enum" not in body:
                    body["tags"] = {"type": self.random.choice(["String", "Long"])}
            for body in definition["actions"].values():
                self.shorten(body, "memberOf")
                requests = body.get("appliesTo") or {}
                self.shorten(requests, "principalTypes")
                self.change(requests.get("context", {}).get("attributes", {}))
        return documents

    def shorten(self, body, field):
        """Takes the last item of a list, now and then."""
        if body.get(field) and self.chance(0.2):
            body[field].pop()

    def change(self, attributes):
        """Changes attributes here and there."""
        for id in list(attributes):
            change = self.random.choice(["", "", "drop", "flag", "type"])
            if change == "drop":
                del attributes[id]
            elif change == "flag":
                attributes[id]["required"] = not attributes[id].get("required", True)
            elif change == "type":
                attributes[id] = {"type": "Long", "required": self.chance(0.5)}

    def bent(self):
        """A document that may be bent out of shape."""
        document = self.documents()[0]
        for body in (body for it in definitions([document]) for body in it["actions"].values()):
            if self.chance(0.3):
                body["attributes"] = {"a": copy.deepcopy(self.random.choice(VALUES))}
        for _ in range(self.random.choice([0, 1, 1, 1, 2])):
            self.bend(self.random.choice([it for it in parts(document) if it] or [document]))
        return document

    def bend(self, part):
        """Changes an object or an array in one place."""
        value, key = copy.deepcopy(self.random.choice(VALUES)), self.random.choice(KEYS)
        how = self.random.choice(["drop", "replace", "add", "rename"])
        if isinstance(part, list):
            at = self.random.randrange(len(part))
            part[at : at + (how != "add")] = [] if how == "drop" else [value]
        elif how == "add" or not part:
            part[key] = value
        else:
            at = self.random.choice(list(part))
            held = part.pop(at)
            part.update({} if how == "drop" else {at: value} if how == "replace" else {key: held})


def declare(document, kind, namespace, id, body):
    """Declares something of a kind in a document, under an id that may stand there."""
    definition = document.setdefault(namespace, {"entityTypes": {}, "actions": {}})
    if (kind, id) != ("common", "String"):
        definition.setdefault(FIELDS[kind], {})[id] = body


def definitions(documents):
    """All definitions of some documents."""
    return [definition for document in documents for definition in document.values()]


def bodies(definition):
    """The bodies of the entity types and the actions of a definition."""
    return [*definition["entityTypes"].values(), *definition["actions"].values()]


def parts(value):
    """All objects and arrays in a document, the document among them."""
    if isinstance(value, (dict, list)):
        yield value
        for held in value.values() if isinstance(value, dict) else value:
            yield from parts(held)
