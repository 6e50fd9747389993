"""The definitions of a file of specs/, and the words that each uses."""
import re

WORD = re.compile(r"[^\s()\[\]{},;«»\"`λ\\]+")
RESERVED = set(
    "abbrev pub unfoldable opaque data record where use as mutual module law ruleset infixl infixr infix "
    "let in elim if then else Type Unit tt absurd open deriving unfolding axiom Prim".split()
)
MODIFIERS = r"(?:(?:pub|abbrev|unfoldable|opaque|inline|instance)\s+)*"
IMPORT = re.compile(
    r"(?m)^[ \t]*((?:pub\s+|ghost\s+|unfoldable\s+|abbrev\s+)*)use\s+([\w.\-]+?)"
    r"(?:\.\{([^}]*)\}|\s+as\s+([\w\-]+))?[ \t]*;?[ \t]*$",
    re.S,
)
SIGNATURE = re.compile(rf"^({MODIFIERS})([^\s:(){{}},]+)((?:\s*\{{[^}}]*\}})*)\s*:(?!:)(\s|$)")
DATA = re.compile(rf"^({MODIFIERS})(data|record|law|ruleset)\s+([^\s:(){{}},=]+)")


def without_strings(line):
    return re.sub(r'"(?:[^"\\]|\\.)*"', '""', line)


def without_comment(line):
    return re.sub(r"(^|\s)--.*", r"\1", line)


def without_field_names(text):
    """The text without the names of the fields of records that are made, as `name =` in `record { name = .. }`."""
    return re.sub(r"([{;]\s*)([^\s{};=:]+)(\s=\s)", r"\1\3", text)


def said_in(lines):
    """What lines of comments say, as one text."""
    return " ".join(it.strip().removeprefix("--").strip() for it in lines).strip()


def words_in(text):
    """The words of a text; of `p.text` also `p`."""
    found = []
    for word in WORD.findall(without_field_names(text)):
        found.append(word)
        if "." in word and not word.startswith("."):
            found.append(word.split(".")[0])
    return found


def bound_in(text):
    """The words that arguments, lambdas and lets of a text bind."""
    bound = set()
    for found in re.finditer(r"[({]\s*([^\s(){}:][^(){}:≡→]*?)\s:(?!:)", text):
        bound |= set(WORD.findall(found[1]))
    for found in re.finditer(r"λ\s*([^.()λ]+)\.", text):
        bound |= set(WORD.findall(found[1]))
    for found in re.finditer(r"λ\s*\(([^)]*)\)\s*\.", text):
        bound |= set(WORD.findall(found[1].split(":")[0].replace(",", " ")))
    for found in re.finditer(r"\blet\s+([^\s:=]+)", text):
        bound.add(found[1])
    return bound


class Definition:
    """A definition: its module, file, name, kind, the comment above it, and its lines without comments and texts."""

    def __init__(self, module, path, name, kind, comment):
        self.module, self.path, self.name, self.kind, self.comment = module, path, name, kind, comment
        self.lines = []
        self.constructors = []
        self.fields = []
        self.used = None

    @property
    def key(self):
        return self.module, self.name

    def count(self):
        return sum(1 for line in self.lines if line.strip())

    def words(self):
        """The words that it uses: `(word, place)`, where the place is `pattern`, `shadowed` or `body`.

        A word of a pattern may be bound there or a constructor, and so may a word of a body that a pattern has too."""
        if self.kind in ("data", "record"):
            text = "\n".join(self.lines)
            bound = bound_in(text) | set(self.fields) | set(self.constructors)
            return [(word, "body") for word in words_in(text) if word not in bound]
        return [it for clause in self.clauses() for it in self.words_of_clause(clause)]

    def clauses(self):
        """Its signature and its clauses: each begins where the first does."""
        found = []
        base = len(self.lines[0]) - len(self.lines[0].lstrip())
        for line in self.lines:
            if not found or len(line) - len(line.lstrip()) == base:
                found.append([])
            found[-1].append(line)
        return ["\n".join(it) for it in found]

    def words_of_clause(self, text):
        bound = bound_in(text)
        cut = re.search(r"\s=(?=\s|$)", text)
        left, right = (text[: cut.start()], text[cut.end() :]) if cut else (text, "")
        if re.match(rf"^\s*{MODIFIERS}{re.escape(self.name)}(\s*\{{[^}}]*\}})*\s*:", text):
            left, right = "", text
        pattern = WORD.findall(left)
        small = {it for it in pattern if it != self.name and re.match(r"^[a-z_]", it)}
        found = [(it, "pattern") for it in pattern]
        for word in words_in(right):
            if word not in bound and word.split(".")[0] not in bound:
                found.append((word, "shadowed" if word in small else "body"))
        return found


class Module:
    """A file of specs/: the comment at its top, its imports, and its definitions in their order."""

    def __init__(self, name, path):
        self.name, self.path = name, path
        self.imports, self.aliases, self.handed_on, self.modules_handed_on = {}, {}, {}, {}
        self.definitions, self.by_constructor = {}, {}
        with open(path, encoding="utf-8") as it:
            text = it.read()
        self.comment = said_in(re.match(r"(?:--.*\n)*", text)[0].split("\n"))
        for found in IMPORT.finditer(text):
            self.read_import(found)
        text = IMPORT.sub(lambda found: re.sub(r"[^\n]", " ", found[0]), text)
        self.read_definitions(text)
        for it in self.definitions.values():
            self.read_parts(it)

    def read_import(self, found):
        is_public = "pub" in found[1].split()
        module, words, alias = found[2], found[3], found[4]
        if words is None:
            self.aliases[alias or module.split(".")[-1]] = module
            if is_public:
                self.modules_handed_on[module.split(".")[-1]] = module
            return
        for parts in filter(None, (it.split() for it in words.split(","))):
            self.imports[parts[-1]] = module, parts[0]
            if is_public:
                self.handed_on[parts[-1]] = module, parts[0]

    def read_definitions(self, text):
        current, shift, above = None, 0, []
        for raw in text.split("\n"):
            line = without_comment(without_strings(raw))
            if not line.strip():
                above = [*above, raw] if raw.strip() else []
                continue
            indent = len(line) - len(line.lstrip())
            if indent == 0:
                shift = 2 if re.match(rf"^{MODIFIERS}mutual\s*$|^module\s", line) else 0
                if shift or re.match(r"^(pub\s+)?mod\s|^infix[lr]?\s", line):
                    current = None
                    continue
            if indent == shift:
                head = line[shift:]
                if found := DATA.match(head):
                    current = self.define(found[3], found[2], said_in(above))
                elif (found := SIGNATURE.match(head)) and found[2] != "unfolding":
                    current = self.define(found[2], "function", said_in(above))
            if current is not None:
                current.lines.append(line)
            above = []

    def define(self, name, kind, comment):
        it = Definition(self.name, self.path, name, kind, comment)
        self.definitions[name] = it
        return it

    def read_parts(self, it):
        """The constructors of a data type, or the fields of a record."""
        for line in it.lines[1:]:
            if it.kind == "data" and (found := re.match(r"^\s+((?:[^\s:(){},=]+\s+)*[^\s:(){},=]+)\s*:(?!:)(\s|$)", line)):
                it.constructors += [name for name in found[1].split() if name != "pub"]
            if it.kind == "record" and (found := re.match(r"^\s+(?:pub\s+)?([^\s:(){},=]+)\s*:(?!:)(\s|$)", line)):
                it.fields.append(found[1])
        self.by_constructor.update((name, it) for name in it.constructors)
