"""Where every executable begins: each of tools/ calls `broker`, which then does what the module of the executable's name does.

    tools/checks/check-json    is main() of tools.checks.check_json
"""
import importlib
import os
import sys
from types import ModuleType

from tools.commands.command_line import ending

AS = "--as"


def module_name(path: str) -> str:
    """The name of the module beside an executable."""
    folder, name = os.path.split(os.path.realpath(path))
    return f"tools.{os.path.basename(folder)}.{name.replace('-', '_')}"


def loaded(name: str) -> ModuleType:
    """The module of that name. Its first text is the help of the parsers that it makes."""
    module = importlib.import_module(name)
    sys.modules["__main__"].__doc__ = module.__doc__
    return module


def run() -> None:
    """Does what this process was called for, and ends it."""
    if sys.argv[1:2] == [AS]:
        sys.argv = sys.argv[2:]
        ending.run(lambda: loaded(module_name(sys.argv[0])).main())
    else:
        from tools.commands.command_line import command
        ending.run(lambda: command.main(sys.argv[1:]))
