"""Inputs that are large, deep, or at fault in more than one way, and what `cedar_check` may say of
them.

What may be said is told by the rules and by the numbers that a row has, and never taken from the
program. The documents are in Cedar's JSON schema format, or texts in its own syntax."""

import json
import resource
import subprocess
from dataclasses import dataclass
from pathlib import Path
from typing import Callable

from documents import LONG, action_below, entity, entity_type, fragment, named, record, set_of

SECONDS = 60
# The stack that commands get, as most systems give it.
STACK = 8 << 20


class Fault(Exception):
    """A row of which something else is said."""


# The inputs, each as its documents.


def with_attribute(ty):
    """An entity type with an attribute `a` of a type."""
    return entity_type(shape=record({"a": ty}))


def shadowed_and_unknown():
    """A type that is shadowed, and a name that nothing declares."""
    outer = fragment({"T": entity_type(), "U": with_attribute(entity("Gone"))})
    return [outer | fragment({"T": entity_type()}, namespace="N")]


def two_cycles():
    """A cycle of common types, and one of actions."""
    types = {"A": record({"x": {"type": "A"}})}
    return [fragment(common_types=types, actions={"v": action_below("v")})]


def below_and_twice():
    """An external type below an enumerated one, and a second definition."""
    tint = entity_type("Color", external=True)
    first = {"Color": {"enum": ["red"]}, "Tint": tint, "U": entity_type()}
    return [fragment(first), fragment({"U": entity_type()})]


def common_types(count, last):
    """Common types, each another name for the next, and the last one for a type."""
    types = {f"T{number}": named(f"T{number + 1}") for number in range(count - 1)}
    return types | {f"T{count - 1}": last}


def common_chain(count):
    """Common types in a chain, and an entity type with an attribute of the first."""
    return [fragment({"U": with_attribute(named("T0"))}, common_types(count, LONG))]


def common_loop(count, back):
    """Common types in a chain, whose last is another name for that of a number."""
    return [fragment(common_types=common_types(count, named(f"T{back}")))]


def entity_text(count):
    """A text of entity types, each below the first."""
    beginning = "entity E0;\n"
    return beginning + "".join(
        f"entity E{number} in [E0] {{ name: String, age?: Long }};\n" for number in range(1, count)
    )


def nested_text(opening, levels):
    """A text in which a type opens so many levels."""
    return f"type T = {opening * levels}"


def doubling(depth):
    """Common types that name the next twice, and an entity type with an attribute of the first."""
    types = {f"T{depth}": named("Long")}
    for number in range(depth):
        below = named(f"T{number + 1}")
        types[f"T{number}"] = record({"l": below, "r": below})
    return [fragment({"U": with_attribute(named("T0"))}, types)]


def sets(depth):
    """Common types that are sets of the next, and an entity type with an attribute of the first."""
    elements = [named(f"T{number}") for number in range(1, depth)] + [LONG]
    types = {f"T{number}": set_of(it) for number, it in enumerate(elements)}
    return [fragment({"U": with_attribute(named("T0"))}, types)]


def records(depth):
    """Common types that are records of the next, and an entity type with one of the first."""
    fields = [named(f"T{number}") for number in range(1, depth)] + [LONG]
    types = {f"T{number}": record({"a": it}) for number, it in enumerate(fields)}
    return [fragment({"U": with_attribute(named("T0"))}, types)]


def choices(*numbers):
    """An enumerated entity type of choices of these numbers, and one that has one above it."""
    color = {"enum": [f"c{number}" for number in numbers]}
    user = entity_type("Color", shape=record({"color": entity("Color")}))
    return [fragment({"Color": color, "U": user})]


def below_one(names):
    """Entity types of these names, all of them below one."""
    return [fragment({"Top": entity_type()} | {name: entity_type("Top") for name in names})]


def action_ring(count):
    """Actions, each below the next and the last below the first."""
    ring = {f"v{number}": action_below(f"v{(number + 1) % count}") for number in range(count)}
    return [fragment(actions=ring)]


def entity_chain(count):
    """Entity types, each below the one before it."""
    chain = {f"E{number}": entity_type(f"E{number - 1}") for number in range(1, count)}
    return [fragment({"E0": entity_type()} | chain)]


def entity_ring(count):
    """Entity types, each below the one before it and the first below the last."""
    return [fragment({f"E{it}": entity_type(f"E{(it - 1) % count}") for it in range(count)})]


def requests(count):
    """An action for requests of as many entity types on as many others."""
    principals, resources = ([f"{it}{number}" for number in range(count)] for it in "PR")
    types = {name: entity_type() for name in principals + resources}
    view = {"appliesTo": {"principalTypes": principals, "resourceTypes": resources}}
    return [fragment(types, actions={"view": view})]


def attributes(count):
    """An entity type with attributes of whole numbers."""
    shape = record({f"a{number}": LONG for number in range(count)})
    return [fragment({"U": entity_type(shape=shape)})]


def fragments(count):
    """An entity type in each of as many documents."""
    return [fragment({f"E{number}": entity_type()}) for number in range(count)]


def declarations(external, definitions):
    """External declarations of one entity type, and definitions of it, each a document."""
    outside = [fragment({"U": entity_type(external=True)})] * external
    return outside + [fragment({"U": entity_type()})] * definitions


def declared_in(namespaces):
    """An entity type in each of some namespaces."""
    return [{name: fragment({"U": entity_type()})[""] for name in namespaces}]


def undeclared_entity_type(name):
    """An attribute of an entity type that nothing declares."""
    return [fragment({"U": with_attribute(entity(name))})]


def undeclared_action(id):
    """An action below one that nothing declares."""
    return [fragment(actions={"v": action_below(id)})]


# What may be said.


def lines(*lines):
    """Just these lines."""
    text = "".join(f"{line}\n" for line in lines)
    return lambda status, out: (status, out) == (0, text)


def has_line(line):
    """This line among others."""
    return lambda status, out: status == 0 and line in out.splitlines()


def number_of_lines(beginning, number):
    """As many unlike lines that begin so."""
    return lambda status, out: status == 0 and number == len(
        {line for line in out.splitlines() if line.startswith(beginning)}
    )


def nothing(status, out):
    """Nothing, and that all went well."""
    return (status, out) == (0, "")


def has_text(text):
    """This text among others, and that all went well."""
    return lambda status, out: status == 0 and text in out


def losses(number, *texts):
    """As many differences, with these texts in what is told of them."""

    def is_right(status, out):
        lines = out.splitlines()
        return status == 6 and len(lines) == number and all(text in out for text in texts)

    return is_right


def number_of_leaves(number):
    """A type in which the type of whole numbers stands as often."""
    return lambda status, out: status == 0 and out.count("Long") == number


def refusal(*messages):
    """A refusal with one of these messages."""
    return refusals(1, *messages)


def refusals(number, *messages):
    """As many refusals, each with one of these messages."""

    def is_right(status, out):
        told = [json.loads(line)["message"] for line in out.splitlines()]
        return status == 1 and len(told) == number and all(it in messages for it in told)

    return is_right


def of_each(is_right, *commands):
    """The same of each of these commands."""
    return [(command, is_right) for command in commands]


def cycle_of_types(first, last):
    """A refusal for one of the common types of these numbers."""
    names = [f"T{number}" for number in range(first, last + 1)]
    return refusal(*[f"the definition of the common type {it} leads back to it" for it in names])


def cycle_of_actions(first, last):
    """A refusal for one of the actions of these numbers."""
    uids = [f'Action::"v{number}"' for number in range(first, last + 1)]
    return refusal(*[f"the action {uid} is its own ancestor" for uid in uids])


ATTRIBUTE_OF_NUMBERS = lines("attr U a: Long", "entity U standard")
SHADOWED_OR_UNKNOWN = refusal(
    "the type N::T would shadow the type T", "no entity type is declared as Gone"
)
EITHER_CYCLE = refusal(
    "the definition of the common type A leads back to it",
    'the action Action::"v" is its own ancestor',
)
BELOW_OR_TWICE = refusal(
    "the external type Tint is below the enumerated type Color",
    "the entity type U is declared twice",
)
ATTRIBUTES_OF_U = "the record of attributes of U"
WRITTEN_OUT = "once common types are written out"
TOO_DEEP = f"{ATTRIBUTES_OF_U} has more than 1000 types in one another {WRITTEN_OUT}"
FIRST_TOO_DEEP = f"the common type T0 has more than 1000 types in one another {WRITTEN_OUT}"
TOO_LARGE = f"with {ATTRIBUTES_OF_U} the schema has more than 1000000 types {WRITTEN_OUT}"
NOT_WRITTEN = (
    "no file declares this schema again: types nest deeper than the 128 levels of a file, in the "
    "attributes of U"
)
COUNTS = has_line("entity types: 1, 0 of them external")
NODE = has_text('"U" [shape=box];')
SHARED = ["build", "envs", "graph"]
WALKING = ["show", "type --entity U", "link"]
# Names that begin so have one hash in the hash tables of std, whatever eight digits follow.
FLOOD = "FloodOf000017770VMgAjaq9"
LONG_ID = "v" * 1_048_576
LONG_UID = f'Action::"{LONG_ID}"'
WORDY_ID = "v w " * 100
MANY = ["::".join([f"N{number}"] + ["M"] * 48) for number in range(1000)]
DEEP = "::".join(["N0"] + ["M"] * 999)


def lower_stack():
    """Has what is run get no more stack than most systems give."""
    resource.setrlimit(resource.RLIMIT_STACK, (STACK, STACK))


def versions(files):
    """The words that compare the first half of some files with the second, or one with itself."""
    half = (len(files) + 1) // 2
    return ["--old", *files[:half], "--new", *(files[half:] or files)]


@dataclass
class Row:
    """Documents that are drawn, and commands that are run on their files, each with what may come
    of it."""

    name: str
    draw: Callable
    asked: list
    seconds: int = SECONDS

    def check(self, program: Path, folder: Path):
        """Fails where something else comes of a command, run in a folder for the files."""
        files = []
        for number, document in enumerate(self.draw()):
            is_text = isinstance(document, str)
            files.append(f"{number}.cedarschema" if is_text else f"{number}.json")
            text = document if is_text else json.dumps(document)
            (folder / files[-1]).write_text(text, "utf-8")
        for command, is_right in self.asked:
            first, *rest = command.split()
            given = versions(files) if first == "compare" else files
            words = [program, first, *given, *rest, "--json"]
            how = {"cwd": folder, "stdin": subprocess.DEVNULL, "timeout": self.seconds}
            how.update(capture_output=True, preexec_fn=lower_stack)
            ran = subprocess.run(words, **how)
            out, err = ran.stdout.decode(), ran.stderr.decode()
            if err or not is_right(ran.returncode, out):
                said = f"status {ran.returncode}\n{out[:1000]}\n{err[:1000]}"
                raise Fault(f"{self.name}, {command[:100]}: {said}")


# How many descendants entity types in a chain have, all together, by how many they are.
CHAINS = {1: 0, 63: 1953, 64: 2016, 65: 2080, 130: 8385}


def chains():
    """The rows of short chains, about as long as a word of a machine has bits."""
    return [
        Row(
            f"{count} entity types in a chain",
            lambda count=count: entity_chain(count),
            [("show", number_of_lines("descendant ", descendants))],
        )
        for count, descendants in CHAINS.items()
    ]


def rows():
    """The rows."""
    return chains() + [
        Row(
            "a shadowed type and an unknown name",
            shadowed_and_unknown,
            [("build", SHADOWED_OR_UNKNOWN)],
        ),
        Row(
            "a cycle of common types and one of actions",
            two_cycles,
            [("build", EITHER_CYCLE)],
        ),
        Row(
            "a text of 10 MB",
            lambda: [entity_text(200_000)],
            [("check", lines("0.cedarschema: ok"))]
            + [("build", has_line("entity types: 200000, 0 of them external"))],
        ),
        Row(
            "100000 sets, and 100000 records, in one another in a text",
            lambda: [nested_text("Set<", 100_000), nested_text("{ a: ", 100_000)],
            [("check", refusals(2, "types nest deeper than 128 levels here"))],
        ),
        Row(
            "an external type below an enumerated one and a second definition",
            below_and_twice,
            [("build", BELOW_OR_TWICE)],
        ),
        Row(
            "1000 common types in a chain",
            lambda: common_chain(1000),
            [("show", ATTRIBUTE_OF_NUMBERS)],
        ),
        Row(
            "100000 common types in a chain",
            lambda: common_chain(100_000),
            [("show", ATTRIBUTE_OF_NUMBERS)],
        ),
        Row(
            "1000 common types whose last leads back to the 500th",
            lambda: common_loop(1000, 500),
            [("build", cycle_of_types(500, 999))],
        ),
        Row(
            "common types that name the next twice, twelve deep",
            lambda: doubling(12),
            [("type --entity U --attribute a", number_of_leaves(4096))],
        ),
        Row(
            "common types that name the next twice, 64 deep",
            lambda: doubling(64),
            [("build", has_line("entity types: 1, 0 of them external"))],
        ),
        Row(
            "200 sets in one another",
            lambda: sets(200),
            [("show", lines(f"attr U a: {'Set<' * 200}Long{'>' * 200}", "entity U standard"))],
        ),
        Row(
            "998 sets in one another and in a record, as many as may be",
            lambda: sets(998),
            [("build", COUNTS), ("envs", nothing), ("graph", NODE), ("compare", nothing)]
            + [("show", lines(f"attr U a: {'Set<' * 998}Long{'>' * 998}", "entity U standard"))]
            + [("type --entity U", has_text("Set<" * 998)), ("link", refusal(NOT_WRITTEN))],
        ),
        Row(
            "999 sets in one another and in a record",
            lambda: sets(999),
            of_each(refusal(TOO_DEEP), *SHARED, *WALKING)
            + [("compare", refusals(2, TOO_DEEP))],
        ),
        Row(
            "998 records in one another and in a record, as many as may be",
            lambda: records(998),
            [("build", COUNTS), ("envs", nothing), ("graph", NODE), ("compare", nothing)]
            + [("show", has_line("entity U standard")), ("link", refusal(NOT_WRITTEN))]
            + [("type --entity U", has_text("{a: " * 998))],
        ),
        Row(
            "50000 sets in one another",
            lambda: sets(50_000),
            of_each(refusal(FIRST_TOO_DEEP), *SHARED, *WALKING)
            + [("compare", refusals(2, FIRST_TOO_DEEP))],
        ),
        Row(
            "50000 records in one another",
            lambda: records(50_000),
            of_each(refusal(FIRST_TOO_DEEP), *SHARED, *WALKING)
            + [("compare", refusals(2, FIRST_TOO_DEEP))],
        ),
        Row(
            "common types that name the next twice, 18 deep",
            lambda: doubling(18),
            [("compare", nothing), ("type --entity U --attribute a", number_of_leaves(1 << 18))],
        ),
        Row(
            "common types that name the next twice, 40 deep",
            lambda: doubling(40),
            [("build", COUNTS), ("envs", nothing), ("graph", NODE)]
            + of_each(refusal(TOO_LARGE), *WALKING)
            + [("compare", refusals(2, TOO_LARGE))],
            seconds=5,
        ),
        Row(
            "20000 choices, compared with themselves",
            lambda: choices(*range(20_000)),
            [("compare", nothing)],
            seconds=5,
        ),
        Row(
            "20000 choices in another order, of which one is gone",
            lambda: choices(*range(20_000)) + choices(*range(19_999, 0, -1)),
            [("compare", losses(2, '"id":"c0"'))],
            seconds=5,
        ),
        Row(
            "20000 entity types below one, whose names hash alike",
            lambda: below_one(f"{FLOOD}{number:08}" for number in range(20_000)),
            [("build", has_line("entity types: 20001, 0 of them external"))],
            seconds=2,
        ),
        Row(
            "100000 actions in a ring",
            lambda: action_ring(100_000),
            [("build", cycle_of_actions(0, 99_999))],
        ),
        Row(
            "65 actions in a ring",
            lambda: action_ring(65),
            [("build", cycle_of_actions(0, 64))],
        ),
        Row(
            "65 entity types in a ring",
            lambda: entity_ring(65),
            [("show", number_of_lines("descendant ", 4225))],
        ),
        Row(
            "2000 entity types in a chain",
            lambda: entity_chain(2000),
            [("show", number_of_lines("descendant ", 1_999_000))],
        ),
        Row(
            "1000 principals and 1000 resources of one action",
            lambda: requests(1000),
            [("build", has_line("environments: 1000000"))],
        ),
        Row(
            "a record of 100000 attributes",
            lambda: attributes(100_000),
            [("show", number_of_lines("attr U a", 100_000))],
        ),
        Row(
            "an id of a mebibyte",
            lambda: [fragment(actions={LONG_ID: {}})],
            [("show", lines(f'action {LONG_UID} defined', f'context {LONG_UID} {{}}'))],
        ),
        Row(
            "a name of a mebibyte that nothing declares",
            lambda: undeclared_entity_type(LONG_ID),
            [("build", refusal(f"no entity type is declared as {LONG_ID[:200]}.."))],
        ),
        Row(
            "an id of 400 characters that nothing declares",
            lambda: undeclared_action(WORDY_ID),
            [("build", refusal(f'no action is declared as "{WORDY_ID[:199]}.." of type Action'))],
        ),
        Row(
            "10000 fragments of one entity type each",
            lambda: fragments(10_000),
            [("build", has_line("entity types: 10000, 0 of them external"))],
        ),
        Row(
            "999 external declarations and a definition of one name",
            lambda: declarations(999, 1),
            [("show", lines("entity U standard"))],
        ),
        Row(
            "998 external declarations and two definitions of one name",
            lambda: declarations(998, 2),
            [("build", refusal("the entity type U is declared twice"))],
        ),
        Row(
            "1000 names of 50 parts that differ in the first",
            lambda: declared_in(MANY),
            [
                ("show", lines(*[f"entity {it}::U standard" for it in sorted(MANY)])),
                (f"type --entity {MANY[0]}::U", lines("{}")),
                (f"type --entity {MANY[-1]}::U", lines("{}")),
            ],
        ),
        Row(
            "a namespace of 1000 parts",
            lambda: declared_in([DEEP]),
            [
                ("show", lines(f"entity {DEEP}::U standard")),
                (f"type --entity {DEEP}::U", lines("{}")),
            ],
        ),
    ]
