"""The page docs/use/CALLS.md: the public calls, from their signatures, doc comments and clauses."""
import re

HEAD = """# Public calls

Written by `tools/believed/run --write` from the code; the gate fails where it is not true. A line has a call, the first
sentence of its comment, when it is refused, and, between brackets, its clauses: what it asks (`requires`) in the
clause's words, and the names of what it promises (`ensures`). What is proved is what the clauses say:
[PROOFS](../believe/PROOFS.md) says it in words, [DEFINITIONS](../believe/DEFINITIONS.md) the clauses' words.

- A call without a prefix is a method of `VastFile`, in another crate a function of it.
- `M T` is `Result<T, AllocError>`: the answer, or memory was refused. `V T` is `Result<T, VastFault>`: the answer, or a
  refusal by name, or memory was refused. A call whose answer is no `Result` wants no memory.
- Where no promises are told, a call that changes the file has `built` and `kept`, another call one clause without a
  name, which is a star where there are more; a dash says that there is none. `built` is the call's equation:
  `Builds old new result answer after` says that it returns `answer` and leaves `after`, both of what the file held, or
  that memory was refused and nothing changed (`Leaves` where nothing is returned; `MayBuild`, `MayChange` after a rule
  that may refuse). `kept` says that what was the file's still is.
- That each handle passed is the file's, which `owns` tests, is asked, not told.
- A law is a theorem.
- Left out are programs, arenas, the lint, examples, and C's functions (`bindings/c/vast.h`).
"""

# In which order crates stand: the user's own first.
CRATES = (
    "xlsynth_vast vast_literal vast_core vast_print vast_plain vast_read vast_names vast_script vast_calls vast_session vast_list vast_talk".split()
)
# Of these only what another crate hands on.
THROUGH = {"vast_core": "xlsynth_vast", "vast_names": "vast_read"}
SHORT, LONG = 15, 80
USUAL = ("built, kept", "*")
SENTENCE_END = r"(?<=[^.])\.(?:\s|$)"
# The words of a refusal, and what is said of memory and of what is left.
WORDS = re.compile(r"(?<!of these): `[^`]{30,}`(?:, with the names .*?bytes)?")
OF_MEMORY = re.compile(
    r"\s*`Memory` (?:where|after|as).*|; the file is unchanged|(?:[,;.]? (?:and|or)|[;,.])? ?(?:[Ww]ant|[Oo]ut) of memory.*"
)
OWNERSHIP = re.compile(r"(?:(?:All|IfSome \w+) )?\(?(?:λ \w+\. )?(?:IfSome \w+ )?\(?(?:λ \w+\. )?Owns\w*\b")


def handed_on(world, crate):
    """The names that the first file of a crate hands on, and its public modules."""
    with open(f"{world.root}/crates/{crate}/src/lib.rt", encoding="utf-8") as it:
        text = it.read()
    names = " ".join(re.findall(r"pub use ([^;]+);", text))
    return set(re.findall(r"\w+", names)), set(re.findall(r"pub mod (\w+)", text))


def below_module(function):
    return function.path[len(function.source.module) :]


def is_reached(function, names, modules):
    """Whether users of its crate can call it."""
    module = function.source.module
    return not module or module[0] in modules or below_module(function)[0] in names


def paragraphs_above(lines, number):
    """The paragraphs of the doc comment above a line, which attributes may part from it."""
    said = []
    for line in map(str.strip, reversed(lines[: number - 1])):
        if line.startswith("///"):
            said.insert(0, line[3:].strip())
        elif not line.startswith(("#[", ")]")):
            break
    return [" ".join(it.split("\n")) for it in "\n".join(said).split("\n\n") if it]


def plain(text):
    """A comment's text without the marks of its links, and without the standard's numbers."""
    text = re.sub(r"\[(`[^`]*`)\](\([^)]*\))?", r"\1", text)
    return re.sub(r"(?:VastFile|crate)::|,? \((?:as in the crate|IEEE) [^)]*\)|, as in the crate `xlsynth-vast`$", "", text)


def first_sentence(text):
    """The first sentence; where that is long, what stands before its first semicolon or colon."""
    sentence = re.split(SENTENCE_END, text, maxsplit=1)[0]
    front = re.match(r"(?:``.*?``|`[^`]*`|[^`])*?(?=[;:] |$)", sentence)[0]
    return front if len(sentence) > LONG and len(front) > SHORT else sentence


def refusals(paragraphs, function):
    """What the comment says of refusals, but for their words and for memory."""
    if any("no_refusal" in it for it in function.clauses):
        return ["Never refused by name"]
    said = [it.removeprefix("# Errors").strip() for it in paragraphs if it.startswith("# Errors")]
    said = [OF_MEMORY.sub("", WORDS.sub("", it)) for it in said]
    said = [re.split(SENTENCE_END, plain(it))[0] for it in said if it and "AllocError" not in it]
    return [re.sub(r"^`Refused`", "Refused", it) for it in said]


def answer(signature):
    """What a signature answers, in short."""
    given = re.search(r"->\s*(.*?)\s*(?:where\b.*)?$", " ".join(signature.split()))
    text = re.sub(r"'\w+ |<'\w+>", "", given[1].rstrip(",")) if given else ""
    text = re.sub(r"^Result<(.*), AllocError>$", r"M \1", text)
    text = re.sub(r"^Result<(.*), VastFault>$", r"V \1", text)
    return f" -> {text}" if text else ""


def parameters(signature):
    """The names of the parameters, which stand at the first depth of the brackets."""
    depth, words = 0, ""
    for letter in signature[signature.index("(") :]:
        depth -= letter in ")]>"
        if depth == 0 and words:
            break
        words += letter if depth == 1 else ""
        depth += letter in "([<"
    names = [it.split(":")[0].strip().removeprefix("mut ") for it in words.split(",") if ":" in it]
    return ", ".join(names)


def asked(text):
    """A clause without what each has."""
    text = re.sub(r"\b(?:self|file)\.(?:old|now)\.?\s*|\.now\b|\bpos (?=\d)|ℤ|\bIsTrue ", "", text)
    return re.sub(r"^\((.*)\)$", r"\1", text)


def clauses(function):
    """What a call asks and the names of what it promises, so far as they are told."""
    asks = [" ".join(text.split()) for kind, _, text in function.named if kind == "requires"]
    asks = ", ".join(f"`{asked(it)}`" for it in asks if not OWNERSHIP.match(it))
    promises = ", ".join(name or "*" for kind, name, _ in function.named if kind == "ensures") or "-"
    promises = "" if promises in USUAL else promises
    told = f"{asks}: {promises}" if asks and promises else asks or promises
    return f" [{told}]" if told else ""


def small(text):
    """The text as it goes on in a sentence."""
    return text[0].lower() + text[1:] if re.match(r"[A-Z][a-z]* ", text) else text


def line_of(function, lines, modules):
    """The line of a call."""
    paragraphs = paragraphs_above(lines, function.line)
    path = below_module(function)
    path = path[1:] if path[0] == "VastFile" else [*(it for it in function.source.module[:1] if it in modules), *path]
    head = "::".join(path) + f"({parameters(function.signature)}){answer(function.signature)}"
    says = ". ".join([small(first_sentence(plain(paragraphs[0]))), *refusals(paragraphs, function)])
    return f"- `{head}`: {says}{clauses(function)}\n"


def of_file(source, names, modules):
    """The lines of a file's calls, after what its first comment says."""
    functions = [it for it in source.functions if it.is_public and is_reached(it, names, modules)]
    if not functions:
        return ""
    with open(source.file, encoding="utf-8") as it:
        lines = it.read().split("\n")
    first = " ".join(it[3:].strip() for it in lines[: next(i for i, it in enumerate(lines) if not it.startswith("//!"))])
    title = first_sentence(plain(re.split(SENTENCE_END, first)[0]))
    path = source.file.split("/src/", 1)[1]
    head = f"\n`{path}`{': ' + title if title else ''}\n\n"
    return head + "".join(line_of(it, lines, modules) for it in functions)


def calls_page(world):
    """The text of the page."""
    text = HEAD
    for crate in CRATES:
        names, modules = handed_on(world, crate)
        if crate in THROUGH:
            names, modules = names & handed_on(world, THROUGH[crate])[0], set()
        its = (it for it in world.sources if it.crate == crate)
        text += f"\n## `{crate}`\n" + "".join(of_file(it, names, modules) for it in its)
    return text
