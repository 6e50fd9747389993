"""Prints lists of calls by the built `vast_replay`."""
import json
import os
import subprocess
import sys

ROOT = os.path.dirname(os.path.dirname(os.path.dirname(os.path.abspath(__file__))))


def program():
    """The words of the command: of `VAST_REPLAY`, or the built program."""
    built = os.environ.get("VAST_REPLAY", f"{ROOT}/crates/vast_replay/out/vast_replay")
    if not os.access(built.split()[0], os.X_OK):
        sys.exit(f"no {built}: it is after `rt ci` or `rt run` in its crate, or name another by VAST_REPLAY")
    return built.split()


def printed(lists):
    """The text of each list, all in one run; ends the program where one is refused, which none is to be."""
    given = "".join(f"== {number}\n{it}\n" for number, it in enumerate(lists))
    ran = subprocess.run([*program(), "--json"], input=given.encode(), capture_output=True)
    answers = [json.loads(it) for it in ran.stdout.splitlines()]
    if len(answers) != len(lists):
        sys.exit(f"{len(lists)} lists, {len(answers)} answers\n{ran.stderr.decode()}")
    for number, answer in enumerate(answers):
        if answer["verdict"] != "made":
            sys.exit(f"refused: {answer['faults']}\n{lists[number]}")
    return [it["text"] for it in answers]
