"""Lists the tools: python -m niskjeld."""

import ast
from pathlib import Path

from .program import TOP

# Those that a user calls; what builds and tests the program itself isn't listed.
TOOLS = ("lattice", "explain", "records", "report", "draw")


def first_line(tool: Path) -> str:
    told = ast.get_docstring(ast.parse(tool.read_text(encoding="utf-8"))) or ""
    return told.split("\n")[0]


def main() -> None:
    for name in TOOLS:
        tool = TOP / "tools" / name
        if tool.is_file():
            print(f"tools/{name:<8} {first_line(tool)}")
    print("\nEach says with --help what its words are. docs/PYTHON.md shows the functions of this package.")


if __name__ == "__main__":
    main()
