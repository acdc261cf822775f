"""Which wrong bodies can be tried in one check, and what that check says of each.

A check goes on after a function that isn't proved, and a caller stands on contracts. So edits of different functions can be
tried at once: each is refused where a goal of its own function is. In one batch are at most one edit of a function, and only
edits whose texts still stand once in their files after those before them. An edit of a constant that stands in no signature and
in no type is one of the functions whose bodies name it.

A function that an edit changes is tried as a copy beside it, under the same contract and with the same answers: what calls the
function stands as it is, and hasn't to be proved again. A number that is changed stands in the copies in place of its name. A
function is changed where it stands if another constant is, if its parameters are, which its callers follow, or if its name is given: a
method of a trait, and functions that call each other. Batches of copies are tried in one check, where each copy is a function of its
own.
"""
import dataclasses
import itertools
import pathlib
import re
from typing import NamedTuple

# a function, an impl block, a trait, a type and a constant, in the layout that `rt fmt` writes
FUNCTION = re.compile(r'( *)(?:pub(?:\([^)]*\))? )?(?:const )?(?:unsafe )?(?:extern "C" )?fn (\w+)')
IMPL = re.compile(r"impl(?:<.*?>)? (?:([\w:]+)(?:<(.*)>)? for )?(&?)(?:'\w+ )?(?:mut )?(\w+)")
CYCLE = re.compile(r" *#\[cycle\((\w+)\)\]")
TRAIT = re.compile(r"(?:pub(?:\([^)]*\))? )?trait (\w+)")
TYPE = re.compile(r"^(?:pub(?:\([^)]*\))? )?(?:struct|enum) (\w+)", re.M)
CONSTANT = re.compile(r"^ *(?:pub(?:\([^)]*\))? )?(?:const|static) (\w+): [^;]*;", re.M)
# what follows the names of functions in their copies of the batch of this number
COPIED = "_edited_{}"
OF_A_COPY = re.compile(r"_edited_\d+\b")
# a constant that is a number, and what the number is
NUMBER = re.compile(r"^ *(?:pub(?:\([^)]*\))? )?const (\w+): ([ui]\w+) = ([\d_ ()<+*-]+);", re.M)
# what names a constant and doesn't use it
IMPORTS = re.compile(r"^ *(?:pub(?:\([^)]*\))? )?(?:ghost )?use [^;]*;|//.*", re.M)


@dataclasses.dataclass(frozen=True)
class Function:
    """A function's module, the type or the trait whose block it is in, if any, and its name; then the trait that the type meets
    there, and the cycle of calls that it is in, if any, and what its name has after it where a copy of it is meant. A method's module
    is that of its type, wherever its block stands."""
    module: str
    block: str
    name: str
    trait: str = dataclasses.field(default="", compare=False)
    cycle: str = dataclasses.field(default="", compare=False)
    copied: str = dataclasses.field(default="", compare=False)

    def path(self):
        """The path that a check has for it, without the crate's name."""
        return "::".join(it for it in (self.module, self.block + self.trait, self.name + self.copied) if it)

    def answers(self):
        """The file of its answers, without the crate's folder: functions that call each other have one."""
        place = "::".join(it for it in (self.module, f"+{self.cycle}") if it) if self.cycle else self.path()
        return "/".join(["proofs", *place.split("::"), "Answers.antt"])

    def has(self, path):
        """Whether a goal at this path is a goal of the function: the path of a check, without the crate's name."""
        parts = re.findall(r"\w+", path)
        module = self.module.split("::") if self.module else []
        if parts[:len(module)] != module:
            return False
        rest, name = parts[len(module):], self.name + self.copied
        if not self.block:
            return rest[:1] == [name]
        met = rest[:1] == [self.block] or self.trait and "".join(rest[:1]).startswith(self.block + self.trait)
        return bool(met) and name in rest[1:]


class Change(NamedTuple):
    """A text of a file and the one in its place."""
    file: str
    old: str
    new: str


def changes_of(text):
    """The changes that an edit's text lists."""
    file, old, found = "", "", []
    for line in text.split("\n"):
        if line.startswith("file: "):
            file = line[len("file: "):].strip()
        elif line.startswith("old: "):
            old = line[len("old: "):]
        elif line.startswith("new:"):
            found.append(Change(file, old, line[len("new:"):].removeprefix(" ")))
    return found


def module_of(file):
    return re.sub(r"(^|/)(lib|main)$", "", file.removeprefix("src/").removesuffix(".rt")).replace("/", "::")


def types_in(read, files):
    """The modules that declare a type, by its name."""
    found = {}
    for file in files:
        for it in TYPE.finditer(read(file)):
            found.setdefault(it[1], []).append(module_of(file))
    return found


def function_at(file, text, place, types=()):
    """The function of a source around this place of its text, or None, where there is none."""
    lines = text.split("\n")
    at = text.count("\n", 0, place)
    for number in range(at, -1, -1):
        found = FUNCTION.match(lines[number])
        if found:
            break
    else:
        return None
    indent = found[1]
    if any(line == indent + "}" for line in lines[number:at]):
        return None  # it ended before
    block, trait = block_at(lines, number) if indent else ("", "")
    if block is None:
        return None
    module = module_of(file)
    declared = dict(types).get(block, [])
    if not trait and module not in declared and len(declared) == 1:
        module = declared[0]
    return Function(module, block, found[2], trait, cycle_of(lines, number))


def above(lines, number):
    """The attributes and comments above the function at this line, the nearest first."""
    return list(itertools.takewhile(lambda line: line.lstrip().startswith(("#[", "//")), reversed(lines[:number])))


def cycle_of(lines, number):
    """The cycle of calls that the function at this line is said to be in, in an attribute above it, or nothing."""
    return next((found[1] for found in map(CYCLE.match, above(lines, number)) if found), "")


class Copy(NamedTuple):
    """The number of the last line of a function, which a copy of it follows, and the copy's lines."""
    after: int
    lines: list


def copy_of(text, at, ending):
    """A copy of the function around this line, whose name has this ending, or None where a trait declares the function."""
    lines = text.split("\n")
    head = next(number for number in range(at, -1, -1) if FUNCTION.match(lines[number]))
    found = FUNCTION.match(lines[head])
    block = next((line for line in reversed(lines[:head]) if IMPL.match(line) or TRAIT.match(line)), "") if found[1] else ""
    if TRAIT.match(block):
        return None
    last = lines.index(found[1] + "}", at)
    first = head - len(above(lines, head))
    own = lines[first : last + 1]
    own[head - first] = lines[head][: found.end(2)] + ending + lines[head][found.end(2) :]
    return Copy(last, own)


def block_at(lines, number):
    """The type or the trait whose block has this line, and the trait that the type meets there, or None."""
    for line in reversed(lines[:number]):
        found = IMPL.match(line)
        if found:
            return named_as(*found.groups())
        found = TRAIT.match(line)
        if found:
            return found[1], ""
        if line == "}":
            break
    return None, ""


def named_as(trait, arguments, mark, block):
    """What a check calls a type and the trait that it meets: a reference is marked, and the trait's arguments that are types follow it."""
    if not trait:
        return block, ""
    types = [it.strip() for it in (arguments or "").split(",")]
    names = [it.rpartition("::")[2] for it in types if re.fullmatch(r"[\w:]+", it)]
    return ("Ref" if mark else "") + block, trait.rpartition("::")[2] + "".join(names)


def is_in_body(text, place):
    """Whether a place that is in a function is in its body, and not in its signature or its clauses."""
    lines = text[:place].split("\n")
    number = max(at for at, line in enumerate(lines) if FUNCTION.match(line))
    return any(re.search(r"^ *\{$|^ *(?!ensures|requires)\S.* \{$", line) for line in lines[number:-1])


def is_first_line(text, place):
    """Whether the line of this place is a function's first one, which has its parameters."""
    return bool(FUNCTION.match(text[text.rfind("\n", 0, place) + 1 :]))


def constant_at(text, place):
    """The name of the constant whose declaration is around this place, or None."""
    return next((it[1] for it in CONSTANT.finditer(text) if it.start() <= place < it.end()), None)


def number_of(text, name):
    """The number that a constant is, of its type where it is no sum, or None where it is none."""
    found = next((it for it in NUMBER.finditer(text) if it[1] == name), None)
    return found and (f"{found[3]}_{found[2]}" if re.fullmatch(r"[\d_]+", found[3]) else f"({found[3]})")


def users_of(name, text_of, files, types=()):
    """The functions whose bodies name a constant, each with its file and a line there, or None where something else names it."""
    users = {}
    for file in files:
        text = text_of(file)
        own = [it.span() for it in CONSTANT.finditer(text) if it[1] == name]
        imports = [(it.span(), " as " in it[0]) for it in IMPORTS.finditer(text)]
        for found in re.finditer(rf"\b{name}\b", text):
            place = found.start()
            if any(start <= place < end for start, end in own):
                continue
            named = [renames for (start, end), renames in imports if start <= place < end]
            if named and not any(named):
                continue
            function = None if named else function_at(file, text, place, types)
            if function is None or not is_in_body(text, place):
                return None
            users[function] = file, text.count("\n", 0, place)
    return users or None


class Batch:
    """Edits that are tried in one check: the texts of the files in which they change functions, the copies of functions by file, and
    each edit's functions."""

    def __init__(self, read, files=(), types=None, number=0):
        self.read, self.files, self.types = read, files, types_in(read, files) if types is None else types
        self.texts, self.copies, self.functions, self.constants = {}, {}, {}, set()
        self.ending = COPIED.format(number)

    def text(self, file):
        return self.texts[file] if file in self.texts else self.read(file)

    def take(self, edit, changes):
        """Adds an edit, and says whether it could be: each text is there once, in a function that no other edit changes."""
        texts, places, constants, is_called_otherwise = {}, {}, {}, False
        for file, old, new in changes:
            text = texts.get(file) or self.text(file)
            if not file.startswith("src/") or text.count(old) != 1:
                return False
            place = text.index(old)
            function, constant = function_at(file, text, place, self.types), constant_at(text, place)
            is_called_otherwise = is_called_otherwise or is_first_line(text, place)
            texts[file] = text.replace(old, new)
            if function is None and constant:
                constants[constant] = number_of(texts[file], constant)
                changed = users_of(constant, self.text, self.files, self.types)
            else:
                changed = function and {function: (file, text.count("\n", 0, place))}
            if not changed or any(own & changed.keys() for own in self.functions.values()):
                return False
            if any(re.search(rf"\b{it}\b", new) for it in self.constants):
                return False
            places.update(changed)
        if not places:
            return False
        copies = [] if is_called_otherwise else self.copies_of(places, texts, constants)
        if self.functions and bool(copies) != bool(self.copies):
            return False
        for file, copy in copies:
            self.copies.setdefault(file, []).append(copy)
        if not copies:
            self.texts.update(texts)
            self.constants |= constants.keys()
        self.functions[edit] = {dataclasses.replace(it, copied=self.ending if copies else "") for it in places}
        return True

    def copies_of(self, places, texts, constants):
        """Copies of all functions at these lines of the files, in which constants are these numbers, or none where one of them can't
        be copied."""
        if None in constants.values() or any(it.trait or it.cycle for it in places):
            return []
        copies = []
        for file, line in places.values():
            copy = copy_of(texts.get(file) or self.text(file), line, self.ending)
            if copy is None:
                return []
            for name, number in constants.items():
                copy.lines[:] = [re.sub(rf"(?:\w+::)*\b{name}\b", number, it) for it in copy.lines]
            copies.append((file, copy))
        return copies

    def join(self, other):
        """Has the check of these copies be that of the copies of another batch, too."""
        self.functions.update(other.functions)
        for file, copies in other.copies.items():
            self.copies.setdefault(file, []).extend(copies)

    def sources(self):
        """The text of each file that the edits change, with the copies after their functions."""
        texts = {file: self.text(file) for file in [*self.texts, *self.copies]}
        for file, copies in self.copies.items():
            lines = texts[file].split("\n")
            for after, copy in sorted(copies, reverse=True):
                lines[after + 1 : after + 1] = ["", *copy]
            texts[file] = "\n".join(lines)
        return texts

    def write(self, folder):
        """Writes the changed files into this copy of the crate, and the answers of each function's copy, which say its name."""
        for file, text in self.sources().items():
            pathlib.Path(folder, file).write_text(text)
        # (a list, since copies of one function are equal)
        for copied in [it for functions in self.functions.values() for it in functions if it.copied]:
            own = dataclasses.replace(copied, copied="")
            name = re.compile(r"\b((?:proofs|contracts)\." + re.escape(own.path().replace("::", ".")) + r")(?![\w-])")
            for file in pathlib.Path(folder, own.answers()).parent.glob("*.antt"):
                to = pathlib.Path(folder, copied.answers()).with_name(file.name)
                to.parent.mkdir(parents=True, exist_ok=True)
                to.write_text(name.sub(rf"\1{copied.copied}", file.read_text()))

    def paths(self):
        """The paths of all functions that the edits change."""
        return sorted({it.path() for functions in self.functions.values() for it in functions})

    def answers(self, paths):
        """The files of the answers of those of these functions that have one of these paths."""
        return sorted({it.answers() for functions in self.functions.values() for it in functions if it.path() in paths})

    def refused(self, goals):
        """By edit, those of the goals that are of its functions, of which none is called a copy there."""
        return {
            edit: [(OF_A_COPY.sub("", path), goal) for path, goal in goals if any(it.has(path) for it in functions)]
            for edit, functions in self.functions.items()
        }


def batches(edits, read, files=()):
    """Batches of the edits, a list of each edit and its changes, and those that can be in none. The files are all sources."""
    made, alone, types = [], [], types_in(read, files)
    for edit, changes in edits:
        if any(batch.take(edit, changes) for batch in made):
            continue
        batch = Batch(read, files, types, len(made))
        if batch.take(edit, changes):
            made.append(batch)
        else:
            alone.append(edit)
    return made, alone


def checks(made):
    """The checks in which batches are tried: those of copies in one, and each other one in its own."""
    found = [it for it in made if not it.copies]
    copied = [it for it in made if it.copies]
    for it in copied[1:]:
        copied[0].join(it)
    return copied[:1] + found
