"""Types without common types: how they print, which values they have, and which include which."""

from typing import NamedTuple


class Basic(NamedTuple):
    """A primitive type, an extension type or the entities of one type, by its name."""

    kind: str
    name: str


class SetOf(NamedTuple):
    """Sets."""

    element: object


class Field(NamedTuple):
    """An attribute of a record."""

    required: bool
    type: object


class Record(NamedTuple):
    """Closed records, by the names of their attributes."""

    fields: dict


NO_ATTRIBUTES = Record({})
PYTHON = {"Bool": bool, "Long": int, "String": str}
MAKERS = {"ip": "ipaddr", "decimal": "decimal", "datetime": "datetime", "duration": "duration"}


def text(ty):
    """How a type prints."""
    if isinstance(ty, Basic):
        return ty.name
    if isinstance(ty, SetOf):
        return f"Set<{text(ty.element)}>"
    fields = sorted(ty.fields.items())
    parts = (f"{name}{mark(field)}: {text(field.type)}," for name, field in fields)
    return "{" + "".join(parts) + "}"


def mark(field):
    """What stands behind the name of an attribute that may be missing."""
    return "" if field.required else "?"


def entity_types(ty):
    """The entity types that a type names."""
    if isinstance(ty, SetOf):
        return entity_types(ty.element)
    if isinstance(ty, Record):
        return {name for field in ty.fields.values() for name in entity_types(field.type)}
    return {ty.name} if ty.kind == "entity" else set()


def uids(value):
    """The types and ids of the entities that a value, as Cedar's JSON writes it, names."""
    if isinstance(value, list):
        return {uid for item in value for uid in uids(item)}
    if not isinstance(value, dict) or "__extn" in value:
        return set()
    if "__entity" in value:
        return {(value["__entity"]["type"], value["__entity"]["id"])}
    return {uid for held in value.values() for uid in uids(held)}


def is_included(one, other):
    """Whether each value of one type is one of the other, whatever exists."""
    if type(one) is not type(other):
        return False
    if isinstance(one, Basic):
        return one == other
    if isinstance(one, SetOf):
        return is_included(one.element, other.element)
    for name, field in one.fields.items():
        its = other.fields.get(name)
        if its is None or not is_included(field.type, its.type) or its.required > field.required:
            return False
    return all(name in one.fields for name, field in other.fields.items() if field.required)


def has(ty, value):
    """Whether a value, as Cedar's JSON writes it, has a type."""
    if isinstance(ty, SetOf):
        return isinstance(value, list) and all(has(ty.element, item) for item in value)
    if isinstance(ty, Record):
        return is_of_record(ty.fields, value)
    if ty.kind == "primitive":
        return type(value) is PYTHON[ty.name]
    if not isinstance(value, dict) or len(value) != 1:
        return False
    if ty.kind == "entity":
        return value.get("__entity", {}).get("type") == ty.name
    call = value.get("__extn", {})
    return MAKERS.get(call.get("fn")) == ty.name and isinstance(call.get("arg"), str)


def is_of_record(fields, value):
    """Whether a value is a record of these attributes and no others."""
    if not isinstance(value, dict) or {"__entity", "__extn"} & set(value):
        return False
    known = all(name in fields and has(fields[name].type, held) for name, held in value.items())
    return known and all(name in value for name, field in fields.items() if field.required)
