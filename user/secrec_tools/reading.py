"""The second reading (`tools/second_reading`), the model of the language in Python that the tools ask what the program below doesn't tell."""
import sys

from .program import TOP

FOLDER = f"{TOP}/tools/second_reading"
if FOLDER not in sys.path:
    sys.path.append(FOLDER)

import checker  # noqa: E402
import clear  # noqa: E402
import entries  # noqa: E402
import gates  # noqa: E402
import json_text  # noqa: E402
import lexer  # noqa: E402
import limits  # noqa: E402
import parser  # noqa: E402
import rounds  # noqa: E402
import tree  # noqa: E402
import verdict  # noqa: E402

__all__ = ["checker", "clear", "entries", "gates", "json_text", "lexer", "limits", "parser", "rounds", "tree", "verdict"]
