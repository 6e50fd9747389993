"""Verilog and SystemVerilog from Python, by the proved library: see bindings/python/README.md."""
from .errors import Condition, NoLibrary, NotInForm, Refused, VastFault
from .file import File, FileType, is_system_verilog_keyword
from .kinds import *  # noqa: F401,F403, the kinds of handles, the enums and the groups
from .kinds import DataKind, LiteralFormat, ModulePortDirection, Port, RegisterDefinition, Reset
from .warning import Warned
