"""Which calls wait, to be sent with later ones: those that nothing refuses for certain."""
from python_words import IN_FUNCTION, REFUSALS

# What tells for certain that a clause is met which compares a number, as Rust and Python write it.
COMPARED = {
    "1 ≤ bit_count": "bit_count >= 1",
    "1 ≤ width": "width >= 1",
    "0 ≤ hi": "hi >= 0",
    "0 ≤ lo": "lo >= 0",
    "0 ≤ index": "index >= 0",
}
# The clause, or the refusal, of calls that enter a name among those of their first argument.
NAMED = ("NameIsFree owner name", REFUSALS["add_reg"], IN_FUNCTION)


def clauses(call):
    """What a call asks beside handles of the file, and the words of its refusal; `None` for words that aren't known."""
    return call.conditions + ((REFUSALS.get(call.method),) if call.is_refused else ())


def tests(call, tells):
    """The tests, of those by clauses, that tell for certain that nothing refuses the call; `None` where a clause has none."""
    found = [tells.get(clause) for clause in clauses(call)]
    return None if None in found else found
