"""How Rust is laid out."""
import subprocess


def rustfmt(code):
    """The code as rustfmt lays it out."""
    command = ["rustfmt", "--edition", "2021", "--emit", "stdout"]
    return subprocess.run(command, input=code, text=True, capture_output=True, check=True).stdout
