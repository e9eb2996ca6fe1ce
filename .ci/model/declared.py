"""What documents in Cedar's JSON schema format declare, and which kinds of fault they have.

The rules are put down here once more, from Cedar's reference and RFCs 24, 53, 70, 82 and 116, and
not from the definitions that the proofs cite: where those say something else than was meant, the
two part."""

from collections import namedtuple
from itertools import product

from .types import NO_ATTRIBUTES, Basic, Field, Record, SetOf, mark, text

EXTENSIONS = ("ipaddr", "decimal", "datetime", "duration")
BUILT_IN = ("Bool", "Long", "String", *EXTENSIONS)
PRIMITIVES = {"String": "String", "Long": "Long", "Boolean": "Bool"}
Declaration = namedtuple("Declaration", "namespace id name body")


def within(namespace, name):
    """The name in full of what is declared under a name in a namespace."""
    return f"{namespace}::{name}" if namespace else name


def base(name):
    """The last part of a name."""
    return name.rpartition("::")[2]


def reached(edges, start):
    """All that one or more edges lead to."""
    found, left = set(), list(edges.get(start, ()))
    while left:
        name = left.pop()
        if name not in found:
            found.add(name)
            left.extend(edges.get(name, ()))
    return found


def is_external(declaration):
    """Whether what is declared is defined elsewhere."""
    return declaration.body.get("external", False)


def repeats(names):
    """Whether some name stands twice."""
    return len(set(names)) < len(names)


class Declared:
    """What documents declare.

    `faults` are the kinds of fault that they have. Without one, `kinds`, `choices`, `attributes`,
    `tags` and `above` say what an entity type is, and `action_kinds`, `contexts`, `environments`
    and `action_above` what an action is."""

    def __init__(self, documents):
        self.faults = set()
        self.common, self.entities, self.actions = [], [], []
        for document in documents:
            for namespace, definition in document.items():
                self.collect(namespace, definition)
        self.check_names()
        self.bodies = {it.name: self.written(it.namespace, it.body) for it in self.common}
        self.check_cycles()
        self.take_entity_types()
        self.take_actions()

    def collect(self, namespace, definition):
        """Takes the declarations of a definition, each under its name; an action's is its uid."""
        for id, body in definition.get("commonTypes", {}).items():
            self.common.append(Declaration(namespace, id, within(namespace, id), body))
        for id, body in definition["entityTypes"].items():
            self.entities.append(Declaration(namespace, id, within(namespace, id), body))
        for id, body in definition["actions"].items():
            uid = within(namespace, "Action"), id
            self.actions.append(Declaration(namespace, id, uid, body))

    def fault_if(self, is_fault, kind):
        """Notes a kind of fault where there is one."""
        if is_fault:
            self.faults.add(kind)

    def check_names(self):
        """What is refused of names alone; and what names may be named."""
        common, entities = [it.name for it in self.common], [it.name for it in self.entities]
        self.fault_if(repeats(common), "DuplicateCommonType")
        defined = [it.name for it in self.entities if not is_external(it)]
        self.fault_if(repeats(defined), "DuplicateEntityType")
        defined = [it.name for it in self.actions if not is_external(it)]
        self.fault_if(repeats(defined), "DuplicateAction")
        plain = {name for name in [*common, *entities] if "::" not in name}
        shadowing = (name for name in [*common, *entities] if "::" in name and base(name) in plain)
        self.fault_if(any(shadowing), "TypeShadowing")
        self.uids = {it.name for it in self.actions}
        plain = {id for ty, id in self.uids if "::" not in ty}
        shadowing = (id for ty, id in self.uids if "::" in ty and id in plain)
        self.fault_if(any(shadowing), "ActionShadowing")
        self.fault_if(any(it.id == "Action" for it in self.entities), "ActionEntityTypeDeclared")
        written = any(it.body.get("attributes") is not None for it in self.actions)
        self.fault_if(written, "UnsupportedFeature")
        aliases = {name for name in BUILT_IN if name not in common and name not in entities}
        self.common_names = {*common, *aliases, *(f"__cedar::{name}" for name in BUILT_IN)}
        self.entity_names = set(entities)
        self.action_types = {ty for ty, _ in self.uids}

    def possibilities(self, namespace, name):
        """What a name may stand for where it is written in a namespace, the first of it first."""
        if "::" in name or not namespace:
            return [name]
        return [within(namespace, name), name]

    def resolved(self, namespace, name, kinds):
        """The kind and the full name of what a reference stands for, or None."""
        for full in self.possibilities(namespace, name):
            if "common" in kinds and full in self.common_names:
                return "common", full
            if "entity" in kinds and full in self.entity_names | self.action_types:
                return "entity", full
        self.faults.add("TypeNotDefined")
        return None

    def entity_type(self, namespace, name):
        """The entity type of a parent, a principal or a resource, or None where it is at fault."""
        found = self.resolved(namespace, name, ["entity"])
        if found is None:
            return None
        self.fault_if(found[1] not in self.entity_names, "UndeclaredEntityTypes")
        return found[1]

    def written(self, namespace, ty):
        """A type as it is written, in which a reference stands as what `resolved` gives of it."""
        word = ty["type"]
        if word in PRIMITIVES:
            return Basic("primitive", PRIMITIVES[word])
        if word == "Set":
            return SetOf(self.written(namespace, ty["element"]))
        if word == "Record":
            self.fault_if(ty.get("additionalAttributes", False), "UnsupportedFeature")
            fields = ty["attributes"].items()
            return Record({name: self.field(namespace, field) for name, field in fields})
        if word == "Extension":
            self.fault_if(ty["name"] not in EXTENSIONS, "UnknownExtensionType")
            return Basic("extension", ty["name"])
        if word == "Entity":
            return self.resolved(namespace, ty["name"], ["entity"])
        if word == "EntityOrCommon":
            return self.resolved(namespace, ty["name"], ["common", "entity"])
        return self.resolved(namespace, word, ["common"])

    def field(self, namespace, attribute):
        """An attribute as it is written."""
        return Field(attribute.get("required", True), self.written(namespace, attribute))

    def check_cycles(self):
        """Refuses common types that lead back to themselves."""
        edges = {name: list(named_common_types(ty)) for name, ty in self.bodies.items()}
        self.has_cycle = any(name in reached(edges, name) for name in edges)
        self.fault_if(self.has_cycle, "CycleInCommonTypeReferences")

    def full(self, ty):
        """A written type with what its common types stand for, or None where that isn't known."""
        if ty is None or self.has_cycle:
            return None
        if isinstance(ty, SetOf):
            return SetOf(self.full(ty.element))
        if isinstance(ty, Record):
            fields = ty.fields.items()
            return Record({name: Field(it.required, self.full(it.type)) for name, it in fields})
        if isinstance(ty, Basic):
            return ty
        kind, name = ty
        if kind == "entity":
            return Basic("entity", name)
        if name in self.bodies:
            return self.full(self.bodies[name])
        word = base(name)
        return Basic("extension" if word in EXTENSIONS else "primitive", word)

    def record(self, declaration, holder, field):
        """The record type of a shape or a context."""
        if field not in holder:
            return NO_ATTRIBUTES
        ty = self.full(self.written(declaration.namespace, holder[field]))
        self.fault_if(ty is not None and not isinstance(ty, Record), "ContextOrShapeNotRecord")
        return ty

    def take_entity_types(self):
        """What entity types are: what the definition says, below what any declaration says."""
        self.kinds, self.choices, self.attributes, self.tags, edges = {}, {}, {}, {}, {}
        for it in self.entities:
            parents = edges.setdefault(it.name, set())
            names = it.body.get("memberOfTypes", ())
            parents |= {self.entity_type(it.namespace, name) for name in names} - {None}
            if is_external(it):
                self.kinds.setdefault(it.name, "external")
            elif "enum" in it.body:
                self.kinds[it.name], self.choices[it.name] = "enum", it.body["enum"]
            else:
                self.kinds[it.name] = "standard"
                self.attributes[it.name] = self.record(it, it.body, "shape")
                if "tags" in it.body:
                    self.tags[it.name] = self.full(self.written(it.namespace, it.body["tags"]))
        self.above = {name: reached(edges, name) for name in self.kinds}
        for name, kind in self.kinds.items():
            self.fault_if(kind == "enum" and edges[name], "EnumEntityInHierarchy")
            below = any(self.kinds.get(upper) == "enum" for upper in self.above[name])
            self.fault_if(kind == "external" and below, "ExternalWithEnumAncestor")

    def take_actions(self):
        """What each action is, as of entity types."""
        self.action_kinds, self.contexts, self.environments, edges = {}, {}, {}, {}
        for it in self.actions:
            parents = edges.setdefault(it.name, set())
            its = it.body.get("memberOf") or ()
            parents |= {self.parent(it.namespace, parent) for parent in its} - {None}
            if is_external(it):
                self.action_kinds.setdefault(it.name, "external")
            else:
                self.action_kinds[it.name] = "defined"
                self.take_requests(it, it.body.get("appliesTo") or {})
        self.action_above = {uid: reached(edges, uid) for uid in self.action_kinds}
        cycle = any(uid in above for uid, above in self.action_above.items())
        self.fault_if(cycle, "CycleInActionHierarchy")

    def take_requests(self, it, requests):
        """The requests that an action is for."""
        types = []
        for field in ("principalTypes", "resourceTypes"):
            names = requests.get(field, ())
            types.append([self.entity_type(it.namespace, name) for name in names])
        self.environments[it.name] = set(product(*types))
        self.contexts[it.name] = self.record(it, requests, "context")

    def parent(self, namespace, parent):
        """The uid of an action's parent."""
        for ty in self.possibilities(namespace, parent.get("type") or "Action"):
            if (ty, parent["id"]) in self.uids:
                return ty, parent["id"]
        self.faults.add("ActionNotDefined")
        return None

    def lines(self):
        """The lines that show the schema, sorted."""
        return sorted(self.unsorted_lines(), key=str.encode)

    def unsorted_lines(self):
        """The lines that show the schema."""
        for name, kind in self.kinds.items():
            yield f"entity {name} {kind}"
            yield from (f"descendant {upper} {name}" for upper in self.above[name])
            yield from (f'choice {name} "{id}"' for id in self.choices.get(name, ()))
            fields = self.attributes.get(name, NO_ATTRIBUTES).fields.items()
            yield from (f"attr {name} {at}{mark(it)}: {text(it.type)}" for at, it in fields)
        yield from (f"tags {name}: {text(ty)}" for name, ty in self.tags.items())
        for uid, kind in self.action_kinds.items():
            yield f"action {shown(uid)} {kind}"
            yield from (f"member {shown(upper)} {shown(uid)}" for upper in self.action_above[uid])
        yield from (f"context {shown(uid)} {text(ty)}" for uid, ty in self.contexts.items())
        for uid, pairs in self.environments.items():
            yield from (f"env {one} {shown(uid)} {other}" for one, other in pairs)


def named_common_types(ty):
    """The common types that a written type names."""
    if isinstance(ty, SetOf):
        yield from named_common_types(ty.element)
    elif isinstance(ty, Record):
        for field in ty.fields.values():
            yield from named_common_types(field.type)
    elif isinstance(ty, tuple) and not isinstance(ty, Basic) and ty[0] == "common":
        yield ty[1]


def shown(uid):
    """How the uid of an action prints, whose id needs no escapes."""
    return f'{uid[0]}::"{uid[1]}"'
