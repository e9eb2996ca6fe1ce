"""Documents in Cedar's JSON schema format, and their parts."""

LONG = {"type": "Long"}
STRING = {"type": "String"}


def named(name):
    """What a name stands for, a common type or an entity type."""
    return {"type": "EntityOrCommon", "name": name}


def entity(name):
    """The entities of a type."""
    return {"type": "Entity", "name": name}


def set_of(element):
    """The sets of elements of a type."""
    return {"type": "Set", "element": element}


def record(attributes):
    """The closed record of some attributes."""
    return {"type": "Record", "attributes": attributes}


def entity_type(*parents, **fields):
    """An entity type right below others."""
    return {"memberOfTypes": list(parents), **fields}


def action_below(parent):
    """An action for no requests, right below another one of the same namespace."""
    return {"memberOf": [{"id": parent}]}


def fragment(entity_types=None, common_types=None, actions=None, namespace=""):
    """A document of what is declared in one namespace."""
    declared = {"entityTypes": entity_types or {}, "actions": actions or {}}
    return {namespace: {"commonTypes": common_types or {}, **declared}}
