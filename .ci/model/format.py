"""Which documents are in Cedar's JSON schema format."""

import re

IDENTIFIER = re.compile(r"[A-Za-z_][A-Za-z0-9_]*\Z")
RESERVED = "__cedar"
NOT_COMMON = {"Bool", "Boolean", "Entity", "Extension", "Long", "Record", "Set", "String"}
FIELDS = {
    "String": {},
    "Long": {},
    "Boolean": {},
    "Set": {"element": "type"},
    "Record": {"attributes": "attributes", "additionalAttributes": "flag"},
    "Entity": {"name": "reference"},
    "EntityOrCommon": {"name": "reference"},
    "Extension": {"name": "unreserved"},
}
NEEDED = ("element", "attributes", "name")


def is_identifier(value):
    """An identifier, which may be reserved."""
    return isinstance(value, str) and bool(IDENTIFIER.match(value))


def is_unreserved(value):
    """An identifier that isn't reserved."""
    return is_identifier(value) and value != RESERVED


def is_common(value):
    """The id of a common type."""
    return is_unreserved(value) and value not in NOT_COMMON


def is_reference(value):
    """A name, which may be reserved."""
    return isinstance(value, str) and all(is_identifier(part) for part in value.split("::"))


def is_name(value):
    """A name that isn't reserved."""
    return is_reference(value) and RESERVED not in value.split("::")


def is_namespace(value):
    """The key of a definition."""
    return value == "" or is_name(value)


def is_text(value):
    """Any text."""
    return isinstance(value, str)


def is_flag(value):
    """`true` or `false`."""
    return isinstance(value, bool)


def is_map(value, key, held):
    """An object with such keys and such values."""
    return isinstance(value, dict) and all(key(name) and held(it) for name, it in value.items())


def is_list(value, held, least=0):
    """An array of such items."""
    return isinstance(value, list) and len(value) >= least and all(map(held, value))


def is_object(value, fields, needed=(), nullable=()):
    """An object with these fields alone, of which some have to be there and some may be `null`."""
    if not isinstance(value, dict) or not all(name in value for name in needed):
        return False
    return all(
        name in fields and (fields[name](held) or held is None and name in nullable)
        for name, held in value.items()
    )


def is_annotations(value):
    """Annotations."""
    return is_map(value, is_identifier, lambda held: held is None or is_text(held))


def is_type(value, further=()):
    """A type, which may have further fields."""
    word = value.get("type") if isinstance(value, dict) else None
    if not is_text(word) or word not in FIELDS and not is_reference(word):
        return False
    own = FIELDS.get(word, {})
    fields = {"type": is_text, **dict(further)}
    fields.update((name, KINDS[kind]) for name, kind in own.items())
    return is_object(value, fields, [name for name in own if name in NEEDED])


def is_attribute(value):
    """An attribute of a record."""
    return is_type(value, {"required": is_flag, "annotations": is_annotations})


def is_common_type(value):
    """A common type."""
    return is_type(value, {"annotations": is_annotations})


KINDS = {
    "type": is_type,
    "attributes": lambda value: is_map(value, is_text, is_attribute),
    "flag": is_flag,
    "reference": is_reference,
    "unreserved": is_unreserved,
}


def is_references(value):
    """References."""
    return is_list(value, is_reference)


def is_entity_type(value):
    """An entity type."""
    if isinstance(value, dict) and "enum" in value:
        own = {"enum": lambda ids: is_list(ids, is_text, 1)}
    else:
        own = {"memberOfTypes": is_references, "shape": is_type, "tags": is_type}
    return is_object(value, {**own, "annotations": is_annotations, "external": is_flag})


def is_value(value):
    """A value in the attributes of an action."""
    if isinstance(value, dict) and set(value) == {"__entity"}:
        return is_object(value["__entity"], {"type": is_name, "id": is_text}, ("type", "id"))
    if isinstance(value, dict) and set(value) == {"__extn"}:
        return is_object(value["__extn"], {"fn": is_name, "arg": is_value}, ("fn", "arg"))
    if isinstance(value, (dict, list)):
        return is_map(value, is_text, is_value) or is_list(value, is_value)
    if isinstance(value, (bool, str)):
        return True
    return isinstance(value, int) and -(2**63) <= value < 2**63


def is_requests(value):
    """What an action applies to."""
    needed = {"principalTypes": is_references, "resourceTypes": is_references}
    return is_object(value, {"context": is_type, **needed}, needed)


def is_parent(value):
    """A parent of an action."""
    return is_object(value, {"id": is_text, "type": is_reference}, ("id",), ("type",))


def is_action(value):
    """An action."""
    absent = {
        "appliesTo": is_requests,
        "memberOf": lambda parents: is_list(parents, is_parent),
        "attributes": lambda values: is_map(values, is_text, is_value),
    }
    fields = {"external": is_flag, "annotations": is_annotations, **absent}
    return is_object(value, fields, (), absent)


def is_definition(value):
    """The definition of a namespace."""
    needed = {
        "entityTypes": lambda its: is_map(its, is_unreserved, is_entity_type),
        "actions": lambda its: is_map(its, is_text, is_action),
    }
    fields = {
        "commonTypes": lambda its: is_map(its, is_common, is_common_type),
        "annotations": is_annotations,
        **needed,
    }
    return is_object(value, fields, needed)


def is_fragment(value):
    """A whole document."""
    return is_map(value, is_namespace, is_definition)
