"""The completions of both programs for bash, zsh and fish, from one table of their words."""
from typing import NamedTuple


class Word(NamedTuple):
    """A word of a program; no meaning has a quote, a colon or a bracket, which shells read otherwise."""

    word: str
    meaning: str
    short: str = ""


COMMON = (
    Word("--help", "print how the program is called", "-h"),
    Word("--version", "print the version", "-V"),
)
WORDS = {
    "vast_replay": (
        Word("--check", "make the lists and print faults alone"),
        Word("--json", "print a line of JSON for each list"),
        Word("--map", "print each line after the number of the line that it comes from"),
        Word("--lint", "tell what is no SystemVerilog or what a tool refuses"),
        Word("--strict", "lint, and status 1 where anything was told"),
        Word("--plain", "print whether the file of each list is plain"),
        Word("--pack", "write each list in packed form"),
        Word("--session", "answer each line of standard input at once"),
        Word("--calls", "print the table of all calls"),
        Word("--again", "try once more what was refused memory"),
        *COMMON,
    ),
    "vast_check": (Word("--same", "tell whether two files are derived as one tree"), *COMMON),
}


def bash(program, words):
    """For bash; what is no option is completed as a file."""
    listed = " ".join(form for it in words for form in (it.word, it.short) if form)
    return f"""# Completes the words of {program}.
_{program}() {{
    COMPREPLY=()
    if [[ ${{COMP_WORDS[COMP_CWORD]}} == -* ]]; then
        mapfile -t COMPREPLY < <(compgen -W "{listed}" -- "${{COMP_WORDS[COMP_CWORD]}}")
    fi
}}
complete -o default -F _{program} {program}
"""


def zsh(program, words):
    """For zsh."""
    rows = [f"'({it.short} {it.word})'{{{it.short},{it.word}}}" if it.short else f"{it.word}" for it in words]
    options = "".join(f"    {row}'[{it.meaning}]' \\\n" for row, it in zip(rows, words))
    return f"#compdef {program}\n\n_arguments \\\n{options}    '*:file:_files'\n"


def fish(program, words):
    """For fish, which completes files by itself."""
    lines = [
        f"complete -c {program} {f'-s {it.short[1:]} ' if it.short else ''}-l {it.word[2:]} -d '{it.meaning}'\n"
        for it in words
    ]
    return f"# Completes the words of {program}.\n" + "".join(lines)


# Where each shell looks for them, and what writes one.
SHELLS = (
    ("share/bash-completion/completions/{}", bash),
    ("share/zsh/site-functions/_{}", zsh),
    ("share/fish/vendor_completions.d/{}.fish", fish),
)


def completions():
    """The texts by their paths in the release."""
    return {
        path.format(program): write(program, words) for program, words in WORDS.items() for path, write in SHELLS
    }
