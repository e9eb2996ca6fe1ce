"""What two versions of a schema admit, entities and requests, and what the new one takes away."""

from .declared import shown
from .types import entity_types, has, is_included, uids


def may_be_all(old, new, ty):
    """Whether each id that an entity of the type may have in one version is one in the other."""
    if new.kinds.get(ty) != "enum":
        return True
    return old.kinds.get(ty) == "enum" and set(old.choices[ty]) <= set(new.choices[ty])


def keeps_uids(old, new, ty):
    """Whether each uid of a type that exists in one version exists in the other."""
    if ty in old.action_types:
        return {it for it in old.uids if it[0] == ty} <= new.uids
    return may_be_all(old, new, ty)


def is_kept(old, new, one, other):
    """Whether each value of one type that names what exists is such a one of the other."""
    return is_included(one, other) and all(keeps_uids(old, new, ty) for ty in entity_types(one))


def keeps_entities(old, new, ty):
    """Whether each entity of a type in one version is one in the other."""
    if ty not in new.kinds:
        return False
    if new.kinds[ty] == "enum":
        return may_be_all(old, new, ty)
    fields = new.attributes[ty].fields.values()
    if old.kinds[ty] == "enum":
        return not any(field.required for field in fields)
    tags = ty not in old.tags or ty in new.tags and is_kept(old, new, old.tags[ty], new.tags[ty])
    above = all(it in new.above[ty] and may_be_all(old, new, it) for it in old.above[ty])
    return tags and above and is_kept(old, new, old.attributes[ty], new.attributes[ty])


def keeps_requests(old, new, uid, pair):
    """Whether each request of an environment in one version is one in the other."""
    if pair not in new.environments.get(uid, ()):
        return False
    context = is_kept(old, new, old.contexts[uid], new.contexts[uid])
    return context and all(may_be_all(old, new, ty) for ty in pair)


def lost(old, new):
    """What the new version takes away, as the program names it."""
    for ty in old.kinds:
        if not keeps_entities(old, new, ty):
            yield f"entity {ty}"
    for uid, above in old.action_above.items():
        if new.action_above.get(uid) != above:
            yield f"action {shown(uid)}"
    for uid, pairs in old.environments.items():
        for pair in pairs:
            if not keeps_requests(old, new, uid, pair):
                yield f"request {pair[0]} {shown(uid)} {pair[1]}"


def is_choice(version, ty, id):
    """Whether an entity of a type may have an id."""
    return version.kinds.get(ty) != "enum" or id in version.choices[ty]


def names_what_exists(version, value):
    """Whether each entity that a value names exists."""
    for ty, id in uids(value):
        if not is_choice(version, ty, id):
            return False
        if ty.split("::")[-1] == "Action" and (ty, id) not in version.uids:
            return False
    return True


def is_entity(version, entity):
    """Whether a version admits an entity, as Cedar's JSON writes it."""
    ty, id = entity["uid"]["type"], entity["uid"]["id"]
    above = {(it["type"], it["id"]) for it in entity["parents"]}
    attributes, tags = entity["attrs"], entity.get("tags", {})
    if (ty, id) in version.action_above:
        return not attributes and not tags and above == version.action_above[ty, id]
    if version.kinds.get(ty) == "enum":
        return is_choice(version, ty, id) and not attributes and not tags and not above
    if ty not in version.kinds:
        return False
    if (ty, id) in above or not names_what_exists(version, [attributes, *tags.values()]):
        return False
    if not all(it in version.above[ty] and is_choice(version, it, its) for it, its in above):
        return False
    tagged = all(ty in version.tags and has(version.tags[ty], value) for value in tags.values())
    return tagged and has(version.attributes[ty], attributes)


def parts_of(text):
    """The type and the id of a uid that needs no escapes, as it prints."""
    ty, _, id = text.partition('::"')
    return ty, id[:-1]


def is_request(version, request):
    """Whether a version admits a request."""
    names = ("principal", "action", "resource")
    principal, uid, resource = (parts_of(request[name]) for name in names)
    if (principal[0], resource[0]) not in version.environments.get(uid, ()):
        return False
    chosen = is_choice(version, *principal) and is_choice(version, *resource)
    context = request["context"]
    return chosen and names_what_exists(version, context) and has(version.contexts[uid], context)


def is_witness(own, other, told):
    """Whether what is told with a difference is admitted by one version alone."""
    test = is_request if told["of"].startswith("request ") else is_entity
    return test(own, told["witness"]) and not test(other, told["witness"])
