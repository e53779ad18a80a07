"""The definitions in the libraries' specs/ and proofs/, the functions of their src/, and what the names in them stand for.

Files are read by their layout: a declaration begins at the margin, or in a section at the section's, and what is indented more
belongs to it. What cannot be read so is a fault.
"""
import re
from pathlib import Path

TOP = Path(__file__).resolve().parent.parent

NAME = r'(?:«[^»]*»|[^\s(){}.;,@"«»]+)'
TOKEN = re.compile(rf'"(?:\\.|[^"\\])*"|{NAME}(?:\.{NAME})*|\.{NAME}|\S')
ANTT_COMMENT = re.compile(r'("(?:\\.|[^"\\])*"|«[^»]*»)|\{-.*?-\}|(?<![^\s(){}.;,@"«»])--[^\n]*', re.S)
RT_COMMENT = re.compile(r'("[^"\\\n]?")|"(?:\\.|[^"\\])*"|//[^\n]*', re.S)
FUNCTION = re.compile(r'\b(pub(?:\([^)]*\))?\s+)?(?:(?:const|unsafe|extern(?:\s*"[^"]*")?)\s+)*fn\s+(\w+)')
CLAUSE = re.compile(r"(?:[^{};\[]|\[[^]]*\])*?\b(requires|ensures)\b[\s*]*(?:\w+\s*)?(?=\{)")
IMPL = re.compile(r"^(?:pub(?:\([^)]*\))?\s+)?((?:trait|impl)\b[^{]*?)\s*\{", re.M)
OWN_TRAIT = re.compile(r"^(?:pub\([^)]*\)\s+)?trait\s+(\w+)", re.M)
MEMBER = re.compile(r"\bghost\s+(\w+)\s*[:=]\s*(?=\{)")
GROUPS = {"(": ")", "{": "}", "<": ">"}

faults = []


class Item:
    """A definition with its constructors or fields and its infix lines; or the head of a section, which has no name."""

    def __init__(self, module, name, section, marks):
        self.module, self.name, self.section, self.marks = module, name, section, marks
        self.constructors, self.chunks = set(), []

    def size(self):
        return sum(bool(line.strip()) for chunk in self.chunks for line in chunk.text.split("\n"))


class Chunk:
    """A signature, a clause or another part of a definition: its text without comments, and its first and last line."""

    def __init__(self, number, line, section):
        self.first, self.last, self.text, self.section = number, number, line, section

    def add(self, number, line):
        self.text += "\n" * (number - self.last) + line
        self.last = number

    def words(self):
        return TOKEN.findall(self.text)


class Module:
    """A file of a library: its definitions, its `use` lines, and the names that can be written in it. Of these `patterns` are
    constructors, and `parts` are what stands between the places of an operator."""

    def __init__(self, crate, path):
        self.crate, self.stem, self.file = crate, path.stem, str(path.relative_to(TOP / "crates" / crate))
        self.raw = path.read_text()
        comment = ANTT_COMMENT if path.suffix == ".antt" else RT_COMMENT
        # Spaces in the place of comments, and of a code's texts but the "C" of a head, so that lines and columns stay.
        self.code = comment.sub(lambda m: m[0] if m[1] else re.sub(r"[^\n]", " ", m[0]), self.raw)
        self.items, self.own, self.uses, self.scope, self.patterns, self.parts = [], {}, [], None, set(), {}

    def fault(self, *words):
        faults.append(": ".join(("believe", self.crate, self.file) + words))


# ---- reading


def chunks_of(module):
    """Cuts a file by its layout. The declarations of a section are indented, under a head that ends in `where`."""
    chunks, levels, head = [], [(0, None)], None
    for number, line in enumerate(module.code.split("\n"), 1):
        if not line.strip():
            continue
        indent, first = len(line) - len(line.lstrip()), TOKEN.match(line.lstrip())[0]
        if head and head.words()[-1] not in ("where", "mutual"):
            head.add(number, line)
            continue
        if head:
            levels.append((indent, head))
            head = None
        goes_on = first in ")}]" or first in ("where", "deriving")
        while indent < levels[-1][0] and not goes_on:
            levels.pop()
        if chunks and (indent > levels[-1][0] or goes_on):
            chunks[-1].add(number, line)
            continue
        chunks.append(Chunk(number, line, levels[-1][1]))
        if set(line.split()[:3]) & {"module", "mutual"}:
            head = chunks[-1]
    return chunks


def read_antt(module):
    """Takes the chunks of a file together to definitions."""
    sections, fixities, last = {None: None}, [], None
    for chunk in chunks_of(module):
        words, marks = chunk.words(), []
        while words[0] in ("pub", "abbrev", "unfoldable", "axiom"):
            marks.append(words.pop(0))
        kind, section = words[0], sections[chunk.section]
        if kind == "use":
            module.uses.append(" ".join(chunk.text.split()).split("use ", 1)[1])
        elif kind in ("infix", "infixl", "infixr"):
            fixities.append((chunk, section))
        elif kind in ("module", "mutual", "data", "record") or is_signature(words):
            name = None if kind in ("module", "mutual") else words[1] if kind in ("data", "record") else kind
            last = Item(module, name, section, marks)
            sections[chunk] = last
            last.constructors = constructors_of(chunk) if kind == "data" else set()
            last.chunks.append(chunk)
            module.items.append(last)
            module.own.update((word, last) for word in last.constructors | {name} if word)
        elif last and kind not in ("mod", "open", "ruleset"):
            last.chunks.append(chunk)
        elif kind != "mod" and not (kind in ("open", "ruleset") and module.file.startswith("proofs/")):
            module.fault(f"line {chunk.first}", "this declaration cannot be read here")
    for chunk, section in fixities:
        owner = module.own.get(chunk.words()[-1], section)
        if owner:
            owner.chunks.append(chunk)
        else:
            module.fault(f"line {chunk.first}", "no definition of this file has this operator")


def is_signature(words):
    """A name, perhaps its levels in braces, and a colon."""
    levels = words.index("}") if words[1:2] == ["{"] and "}" in words else 0
    return words[levels + 1 : levels + 2] == [":"]


def constructors_of(chunk):
    """The names before a colon that begin the lines which are indented least."""
    body = [line for line in chunk.text.partition(" where\n")[2].split("\n") if line.strip()]
    margin = min((len(line) - len(line.lstrip()) for line in body), default=0)
    starts = [TOKEN.findall(line) for line in body if not line[margin].isspace()]
    return {word for words in starts if ":" in words for word in words[: words.index(":")]}


def variables(words, is_clause):
    """The names before a colon in a bracket, those that λ and let bind, and those on the left of a clause."""
    text = " ".join(words)
    bound = re.findall(rf"[({{] ((?:{NAME} )+?):", text) + re.findall(rf"\b(?:λ|let) ((?:{NAME} )+?)[.:=]", text)
    if is_clause and words[0] not in ("unfolding", "infix", "infixl", "infixr"):
        bound.append(re.split(r" = (?![^({]*[)}])", text)[0])
    return set(" ".join(bound).split())


def closing(text, at):
    """Where the bracket that opens there is closed."""
    depth, shut = 0, GROUPS[text[at]]
    for place in range(at, len(text)):
        depth += (text[place] == text[at]) - (text[place] == shut and text[place - 1 : place + 1] != "->")
        if depth == 0:
            return place
    return len(text)


def functions_of(module):
    """Each function's name, whether it is public, its parameters, and its `requires` and `ensures`, word by word, with the text of the latter
    and what it is lent to change."""
    for head in FUNCTION.finditer(module.code):
        # The bounds of a generic function have brackets of their own.
        generic = module.code[head.end()] == "<"
        at = module.code.index("(", closing(module.code, head.end()) if generic else head.end())
        end = closing(module.code, at)
        parameters = set(re.findall(r"(\w+)\s*:(?!:)", module.code[at:end])) | {"self"}
        clauses, place = {"requires": [], "ensures": [], "text": []}, end + 1
        clauses["lent"] = re.findall(r"(\w+)\s*:\s*&mut\b", module.code[at:end])
        while found := CLAUSE.match(module.code, place):
            place = closing(module.code, found.end()) + 1
            # A parameter is quoted, as «pair_count», where antt would read its name as an operator's.
            text = module.code[found.end() + 1 : place - 1]
            clauses[found[1]].append([word[1:-1] if word[1:-1] in parameters else word for word in TOKEN.findall(text)])
            clauses["text"] += [" ".join(text.split())] * (found[1] == "ensures")
        yield head[2], (head[1] or "").strip() == "pub", parameters, clauses


def members_of(module):
    """Each trait and `impl`: its head, the trait's name, and its ghost members with their texts, by name."""
    for head in IMPL.finditer(module.code):
        members = MEMBER.finditer(module.code, head.end(), closing(module.code, head.end() - 1))
        texts = {member[1]: module.code[member.end() + 1 : closing(module.code, member.end())] for member in members}
        generic = head[1].startswith("impl<")
        trait = re.match(r"\s*(?:trait\s+)?(\w+)", head[1][closing(head[1], 4) + 1 if generic else 0 :].removeprefix("impl"))
        yield " ".join(head[1].split()), trait and trait[1], {name: " ".join(text.split()) for name, text in texts.items()}


# ---- what a name stands for


class Sources:
    """The libraries that crates.txt lists, in its order, with their files. Those that are static are over another one, whose calls they
    export, and have no definitions."""

    def __init__(self):
        lines = [line.split("#")[0] for line in (TOP / "crates.txt").read_text().split("\n")]
        heads = [line.split(":")[0].split() for line in lines if ":" in line]
        self.crates = [head[0] for head in heads if (TOP / "crates" / head[0] / "src" / "lib.rt").is_file()]
        self.static = {head[0] for head in heads if "staticlib" in head}
        self.modules = {}
        for crate in self.crates:
            for folder in ("specs", "proofs", "src"):
                for path in sorted((TOP / "crates" / crate / folder).glob("*.antt" if folder != "src" else "**/*.rt")):
                    self.add(crate, folder, Module(crate, path))

    def add(self, crate, folder, module):
        self.modules[crate, folder, module.file if folder == "src" else module.stem] = module
        if folder == "src":
            module.uses = [" ".join(use.split()) for use in re.findall(r"\bghost use\s+([^;]+);", module.code)]
        else:
            read_antt(module)

    def of(self, folder, crate=None):
        return [module for (name, where, _), module in self.modules.items() if where == folder and crate in (None, name)]

    def own_traits(self, crate):
        """The traits of a crate that no other crate can name."""
        return {name for module in self.of("src", crate) for name in OWN_TRAIT.findall(module.code)}

    def definitions(self, crate):
        return [item for module in self.of("specs", crate) for item in module.items]

    def find(self, path, module):
        """The definition at the end of a whole path, or nothing where it is the kit's or a type of src/."""
        parts = re.fullmatch(r"Rattle\.(\w+)\.(specs|proofs)\.([^.]+)\.([^.]+).*", path)
        if not parts or parts[1] not in self.crates or parts[3] == "declared":
            return None
        owner = self.modules.get(parts.group(1, 2, 3))
        found = owner and self.scope(owner).get(parts[4])
        if not found:
            module.fault(f"there is no {path}")
        return found

    def scope(self, module):
        """Each name of a file's own or of its `use` lines: a definition, or the path of a module."""
        if module.scope is None:
            module.scope = dict(module.own)
            module.patterns = {word for item in module.items for word in item.constructors}
            # Modules first, since a line may name a definition by the name that another line gives to its module.
            for use in sorted(module.uses, key=lambda use: ".{" in use):
                self.bring(module, *use.partition(".{")[::2])
            for name in (name for name in module.scope if "◌" in name and "«" not in name and module.scope[name]):
                module.parts.update((part, module.scope[name]) for part in name.split("◌") if part)
        return module.scope

    def bring(self, module, path, leaves):
        head, dot, rest = path.partition(".")
        if not leaves:
            path, _, name = path.partition(" as ")
            module.scope[name or path.split(".")[-1]] = path
        elif isinstance(module.scope.get(head), str):
            path = module.scope[head] + dot + rest
        if path.endswith("*"):
            module.fault(f"use {path}", "the names that this brings are not followed")
        for leaf in re.findall(r"[^,\s}][^,}]*", leaves):
            name, _, local = leaf.strip().partition(" as ")
            found = module.scope[local or name.split(".")[-1]] = self.find(f"{path}.{name}", module)
            if found and name in found.constructors:
                module.patterns.add(local or name)

    def resolve(self, word, module):
        """The definition of this repository that a word stands for, or nothing."""
        head, _, rest = word.partition(".")
        found = self.scope(module).get(head) or module.parts.get(head.strip("◌"))
        if isinstance(found, str):
            found = self.find(f"{found}.{rest}", module) if rest else None
        return found or (self.find(word, module) if head == "Rattle" else None)

    def named(self, words, module):
        return {found for found in (self.resolve(word, module) for word in words) if found}

    def hidden(self, item):
        """The variables of a definition that are named like another one, so that a reader could take them for it."""
        for chunk in item.chunks:
            for word in variables(chunk.words(), chunk is not item.chunks[0]):
                found = self.scope(item.module).get(word)
                if isinstance(found, Item) and found is not item and word not in item.module.patterns:
                    yield word

    def reached(self, items):
        """These definitions and all that they need."""
        seen, left = set(), list(items)
        while left:
            item = left.pop()
            if item not in seen:
                seen.add(item)
                left += filter(None, [item.section])
                for chunk in item.chunks:
                    left += self.named(chunk.words(), item.module)
        return seen
