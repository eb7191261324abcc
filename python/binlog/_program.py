"""The program `binlog`, where it is asked."""

import os
import shutil
from typing import Optional, Union

VARIABLE = "BINLOG_PROGRAM"
PROGRAM = "binlog"


class ProgramError(Exception):
    """The program `binlog` isn't found, or doesn't do what it is asked for. The text is what it said."""


def program(stated: Optional[Union[str, "os.PathLike[str]"]] = None) -> str:
    """The program that is stated, or the one that the variable BINLOG_PROGRAM names, or the one that the system finds."""
    path = stated or os.environ.get(VARIABLE) or shutil.which(PROGRAM)
    if not path:
        raise ProgramError(f"there is no program {PROGRAM}: {VARIABLE} or --program PATH names it")
    return os.fspath(path)
