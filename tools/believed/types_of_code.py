"""The types of src/ that definitions speak of, with the types that their fields name."""
import re

from program import matching

TYPE = re.compile(r"(?m)^[ \t]*(?:pub(?:\([^)]*\))?[ \t]+)?(?:struct|enum)[ \t]+(\w+)")
DECLARED = re.compile(r"^Rattle\.(\w+)\.specs\.declared\.(?:[\w.]*\.)?(\w+?)(?:\.TheVariants)?$")
IMPORT = re.compile(r"(?m)^[ \t]*(?:pub(?:\([^)]*\))?[ \t]+)?use[ \t]+(\w+)::([^;]*);")


class Type:
    """A struct or an enum of src/: its crate, its name, and its text without comments."""

    def __init__(self, source, name, text):
        self.source, self.name, self.text = source, name, text
        code = re.sub(r"#\[[^\]]*\]", "", text)
        self.lines = sum(1 for line in code.split("\n") if line.strip())

    def words(self):
        """The names that may be those of other types, each with the crate that its file imports it from."""
        imported = {
            part.split(" as ")[-1].strip(): (found[1], part.split(" as ")[0].strip())
            for found in IMPORT.finditer(self.source.text)
            for part in re.sub(r"\b\w+::|[{}]", "", found[2]).split(",")
        }
        for word in re.findall(r"\b[A-Z]\w*", self.text):
            crate, name = imported.get(word, ("crate", word))
            yield self.source.crate if crate == "crate" else crate, name


class Types:
    """All types of the crates, by crate and name."""

    def __init__(self, sources):
        self.by_name = {}
        for source in sources:
            for found in TYPE.finditer(source.text):
                stop = found.end() + re.search(r"[;{]", source.text[found.end() :]).start()
                if source.text[stop] == "{":
                    stop = matching(source.text, stop)
                text = source.text[found.start() : stop + 1]
                self.by_name[source.crate, found[1]] = Type(source, found[1], text)

    def find(self, crate, name):
        """The type of that name in the crate, if it has one."""
        return self.by_name.get((crate, name))

    def named(self, imports, aliases, word):
        """The type that a word of a definition or of a clause stands for, or nothing."""
        head = word.split(".")[0]
        module = imports.get(word, imports.get(head, (None, None)))[0] or aliases.get(head)
        found = DECLARED.match(module or "")
        return self.find(found[1], found[2]) if found else None

    def closure(self, named):
        """These types, with those that their fields name."""
        reached, waiting = set(), [it for it in named if it]
        while waiting:
            it = waiting.pop()
            if it not in reached:
                reached.add(it)
                waiting += filter(None, (self.find(*word) for word in it.words()))
        return reached
