"""What the sources of the crates say, as far as a pattern can tell: which calls a library declares and
what they give, and on values of which types the functions of a test make calls."""

import re
from pathlib import Path

CRATES = Path(__file__).resolve().parent.parent / "crates"
# The libraries that crates of tests share.
SHARED = ["checked"]
DECLARED = re.compile(r"^(?:pub(?:\(crate\))? )?trait \w+", re.M)
IMPL = re.compile(r"^impl\b(?:<[^{\n]*?>)? *(?:(\w+)(?:<[^\n]*?>)? for )?(\w+)", re.M)
CALL = re.compile(
    r"^( *)(pub(?:\(crate\))? )?(?:const )?fn (\w+)(.*?)(?:^ *(?:requires|ensures)|[;{]$)",
    re.M | re.S,
)
GIVEN = re.compile(r"-> (.+?)\s*$", re.S)
NOTHING = re.compile(r"(?:(?:\w+::)*(?:M|Result)<)?\(\)", re.S)
STRUCT = re.compile(r"^pub struct (\w+)[^{;]*\{(.*?)^\}", re.M | re.S)
FIELD = re.compile(r"^    pub (\w+): ([^\n]+?),?$", re.M)
ALIAS = re.compile(r"^(?:pub(?:\(crate\))? )?type (\w+)[^=\n]*= ([^;]+);", re.M)
CONSTANT = re.compile(r"^(?:pub(?:\(crate\))? )?const (\w+): ([^=]+?) =", re.M)
IMPORT = re.compile(r"^use (crate|checked)((?:::\w+)*)::(\{[^}]*\}|\w+);", re.M)
FUNCTION = re.compile(r"^(?:pub(?:\(crate\))? )?fn (\w+)", re.M)
COMMENT = re.compile(r"^ *//.*", re.M)
TEXT = re.compile(r'r#".*?"#|"(?:[^"\\]|\\.)*"', re.S)
# What a value is got out of: a borrow, a refusal, a pointer, a module's name.
WRAPPED = re.compile(r"^(?:&(?:'\w+ )?(?:mut )?|(?:\w+::)*(?:M|Result|Option|Rc|Box|Shared)<|\w+::)")
LISTED = re.compile(r"^(?:Vec<|\[|Iter<'\w+, )")
# Calls that give the value itself, and those that give an item of a list.
SAME = "clone as_ref iter into_iter iter_mut ok ok_or unwrap copied cloned value".split()
ITEM = "first last next get".split()
# What binds a name: `let`, a pattern around it, a loop, the first arm of a match.
BOUND = re.compile(
    r"\b(?:let (?:mut )?(\w+)(?:: ([^=;]+?))? = |let (?:Some|Ok|Err)\((\w+)\) = |for &?(\w+) in "
    r"|match (?=[^{;]*?\{\s*(?:\w+(?:::\w+)* => [^,]*,\s*)*(?:Some|Ok)\((\w+)\)))"
)
PAIR = re.compile(r"\blet \(([^()]+)\) = \(")


def files(crate):
    return sorted((CRATES / crate / "src").rglob("*.rt"))


def module_of(path, crate):
    """The place of a file among those of its crate, without its ending."""
    return str(path.relative_to(CRATES / crate / "src")).removesuffix(".rt")


def declared_calls(crate):
    """The calls that a library declares: the trait and the type that have it, whether it is public,
    its name and the rest of its head."""
    for path in files(crate):
        text = path.read_text()
        blocks = [(0, None, None)] + [(it.start(), *it.groups()) for it in IMPL.finditer(text)]
        # What a trait declares is a call of the types that have it, and of none before it.
        blocks += [(it.start(), None, None) for it in DECLARED.finditer(text)]
        blocks.sort(key=lambda it: it[0])
        for call in CALL.finditer(text):
            indent, public, name, rest = call.groups()
            _, trait, ty = [block for block in blocks if block[0] <= call.start()][-1]
            yield trait, ty if indent else None, public == "pub ", name, rest


def closing(text, at):
    """The place behind the bracket that closes the one at a place."""
    depth = 0
    for place in range(at, len(text)):
        depth += (text[place] in "([{") - (text[place] in ")]}")
        if depth == 0:
            return place + 1
    return len(text)


def ended(text, at):
    """The place where the statement ends that goes on at a place."""
    depth = 0
    for place in range(at, len(text)):
        depth += (text[place] in "([{") - (text[place] in ")]}")
        if depth < 0 or (depth == 0 and text[place] == ";"):
            return place
    return len(text)


def arguments(text):
    """What stands between the commas of a call."""
    parts, depth = [""], 0
    for letter in text:
        depth += (letter in "([{") - (letter in ")]}")
        if letter == "," and depth == 0:
            parts.append("")
        else:
            parts[-1] += letter
    return parts


def chain(expression):
    """The parts of an expression between its dots, without `?`, borrows and indices."""
    text = re.sub(r"\s+", " ", expression).strip().lstrip("&*! ").removeprefix("mut ")
    parts, depth = [""], 0
    for letter in text:
        depth += (letter in "([{") - (letter in ")]}")
        if depth < 0 or (depth == 0 and letter in ";,=|"):
            break
        if letter == "." and depth == 0:
            parts.append("")
        else:
            parts[-1] += letter
    return [re.sub(r"\[.*\]$", "", part.strip(" ?")) for part in parts]


def chain_before(text, end):
    """The chain of names, calls and fields that ends at a place, and where it begins."""
    depth, at = 0, end
    while at > 0:
        letter = text[at - 1]
        depth += (letter in ")]}") - (letter in "([{")
        if depth < 0 or (depth == 0 and not re.match(r"[\w:.?()\[\]<>'\s]", letter)):
            break
        if depth == 0 and re.search(r"\b(?:return|let|in|match|if|else|mut)\s$", text[:at]):
            break
        at -= 1
    return at, text[at:end]


class Types:
    """What calls give and fields hold, by the names of their types."""

    def __init__(self, libraries, tests):
        self.aliases, self.gives, self.holds, self.empty = {}, {}, {}, set()
        for path in (path for crate in tests for path in files(crate)):
            found = ALIAS.findall(path.read_text())
            self.aliases.update((name, self.head(ty)) for name, ty in found)
        for crate in [*libraries, *tests]:
            self.add(crate)

    def add(self, crate):
        for _, ty, _, name, rest in declared_calls(crate):
            found = GIVEN.search(rest)
            self.gives[ty, name] = self.head(found[1], ty) if found else ""
            if not found or NOTHING.match(found[1]):
                self.empty.add((ty, name))
        for path in files(crate):
            for struct, body in STRUCT.findall(path.read_text()):
                for field, ty in FIELD.findall(body):
                    self.holds[struct, field] = self.head(ty, struct)

    def head(self, ty, own=None):
        """The name of a type, without what wraps a value of it; `[]` before it for a list."""
        ty = ty.strip()
        while found := WRAPPED.match(ty):
            ty = ty[found.end() :].strip()
        if found := LISTED.match(ty):
            return "[]" + (self.head(ty[found.end() :], own) or "")
        name = re.match(r"\w*", ty)[0]
        return own if name == "Self" else self.aliases.get(name, name)

    def of(self, expression, bound, beside):
        """The type of a chain of names, calls and fields, by what names are bound to, and what the
        functions and constants beside it are of; None where that isn't told."""
        first, *parts = chain(expression)
        ty = self.of_first(first, bound, beside)
        for part in parts:
            name, is_call = re.match(r"\w*", part)[0], "(" in part
            if is_call and (ty, name) in self.gives:
                ty = self.gives[ty, name]
            elif is_call and ty and name in ITEM:
                ty = ty.removeprefix("[]")
            elif not (is_call and name in SAME):
                ty = None if is_call else self.holds.get((ty, name))
        return ty

    def of_first(self, part, bound, beside):
        if found := re.match(r"(?:\w+::)*([A-Z]\w*)(?:::<[^()]*>)?::(\w+)\(", part):
            return self.gives.get((found[1], found[2]))
        if found := re.match(r"(?:\w+::)*([A-Z]\w*) \{", part):
            return found[1]
        if found := re.match(r"(?:\w+::)*(\w+)\(", part):
            return beside.get(found[1]) or self.gives.get((None, found[1]))
        name = re.match(r"\w*", part)[0]
        return bound.get(name) or (beside.get(name) if name.isupper() else None)


class Function:
    """A function of a test: what its names are bound to, and the calls in it."""

    def __init__(self, name, text, types, beside):
        self.name, self.types, self.beside = name, types, beside
        start = text.find("{\n")
        self.body = text[start:]
        generic = re.match(r"[^(]*?<(.*?)>\(", text[:start], re.S)
        self.generics = re.findall(r"(?:^|, )\s*([A-Z]\w*)(?=:|,|$)", generic[1]) if generic else []
        # The types that a type parameter stands for, where the function is called.
        self.stands_for = {name: set() for name in self.generics}
        listed = text[text.find("(", generic.end() - 1 if generic else 0) : start]
        self.parameters = [
            (name, types.head(ty))
            for name, ty in re.findall(r"(\w+): ([^,()]+(?:<[^()]*?>)?)", listed)
        ]
        self.bound = [(0, *it) for it in self.parameters]
        self.bind()

    def bind(self):
        """Finds what each name is bound to, and from where on."""
        for found in BOUND.finditer(self.body):
            name, said, inner, item, matched = found.groups()
            value = self.body[found.end() :]
            if item or matched:
                value = value.split(" {\n")[0]
            ty = self.types.head(said) if said else self.type_of(found.end(), value)
            start = ended(self.body, found.end()) if name or inner else found.end()
            if ty:
                ty = ty.removeprefix("[]") if item else ty
                self.bound.append((start, name or inner or item or matched, ty))
        for found in PAIR.finditer(self.body):
            end = ended(self.body, found.end())
            values = arguments(self.body[found.end() : end - 1])
            for name, value in zip(re.findall(r"\w+", found[1]), values):
                if ty := self.type_of(found.end(), value):
                    self.bound.append((end, name, ty))
        self.bound.sort()

    def type_of(self, place, expression):
        """The type of an expression at a place, by what names are bound to before it."""
        bound = {name: ty for start, name, ty in self.bound if start < place}
        return self.types.of(expression, bound, self.beside)

    def tell(self, generic):
        """Tells generic functions what their type parameters stand for in the calls made here."""
        for found in re.finditer(r"(?<!fn )\b(\w+)(?:::<([^()]*?)>)?\(", self.body):
            called = generic.get(found[1])
            if called is None:
                continue
            for name, ty in zip(called.generics, re.split(r", (?![^<]*>)", found[2] or "")):
                called.stands_for[name].add(self.types.head(ty))
            values = arguments(self.body[found.end() : closing(self.body, found.end() - 1) - 1])
            for (_, name), value in zip(called.parameters, values):
                if name in called.stands_for and (ty := self.type_of(found.start(), value)):
                    called.stands_for[name].add(ty)

    def makes(self, ty, name, is_shared):
        """Whether a call is made here whose answer goes somewhere: of no type, or on a value of its
        type. Only for a name that calls of several types share has the type to be found."""
        for found in re.finditer(rf"(?<!fn )\b{name}\b(?:::<[^()]*?>)?\(?", self.body):
            if self.is_of(found, ty, is_shared) and not self.is_dropped(found, ty, name):
                return True
        return False

    def is_of(self, found, ty, is_shared):
        at, is_call = found.start(), found[0].endswith("(")
        if ty is None:
            return is_call and self.body[at - 1] != "."
        if path := re.search(r"\b(\w+)(?:::<[^()]*?>)?::$", self.body[:at]):
            return path[1] == ty or ty in self.stands_for.get(path[1], ())
        if not is_call or self.body[at - 1] != ".":
            return False
        of = self.type_of(*chain_before(self.body, at - 1))
        return not is_shared or of == ty or ty in self.stands_for.get(of, ())

    def is_dropped(self, found, ty, name):
        """Whether the statement does no more than the call, or gives its answer to `_`."""
        start = max(self.body.rfind(it, 0, found.start()) for it in ";{}") + 1
        statement = self.body[start : found.start()]
        if re.match(r"\s*let _\w* = ", statement):
            return True
        end = closing(self.body, found.end() - 1)
        is_bare = re.match(r"\??;", self.body[end:]) and re.fullmatch(r"[\s\w:.&*()]*", statement)
        return bool(is_bare) and (ty, name) not in self.types.empty


def given_in(crate, types):
    """What the functions of each module of a crate give."""
    return {
        module_of(path, crate): {
            name: types.head(found[1])
            for _, _, name, rest in CALL.findall(path.read_text())
            if (found := GIVEN.search(rest))
        }
        for path in files(crate)
    }


def imported(text, given, spelled):
    """What the functions give that a file imports from its own crate or from one that tests share."""
    found = {}
    for crate, place, names in IMPORT.findall(text):
        known = given.get(place.strip(":").replace("::", "/"), {}) if crate == "crate" else spelled
        found.update((it, known[it]) for it in re.findall(r"\w+", names) if it in known)
    return found


def functions(crate, types):
    """The functions of a crate of tests."""
    given = given_in(crate, types)
    shared = [names for crate in SHARED for names in given_in(crate, types).values()]
    spelled = {it: ty for names in shared for it, ty in names.items()}
    for path in files(crate):
        text = TEXT.sub('""', COMMENT.sub("", path.read_text()))
        beside = imported(text, given, spelled) | given[module_of(path, crate)]
        beside.update((name, types.head(ty)) for name, ty in CONSTANT.findall(text))
        starts = [(it.start(), it[1]) for it in FUNCTION.finditer(text)] + [(len(text), None)]
        for (start, name), (end, _) in zip(starts, starts[1:]):
            yield Function(name, text[start:end], types, beside)
