"""The words of a tool's call."""

from __future__ import annotations

import argparse
from typing import NoReturn


class Words(argparse.ArgumentParser):
    """A parser that tells a fault of the words in one line, and ends with 2."""

    def __init__(self, tool: str, about: str | None) -> None:
        super().__init__(prog=f"tools/{tool}", description=about, formatter_class=argparse.RawDescriptionHelpFormatter)
        self.tool = tool

    def error(self, message: str) -> NoReturn:
        self.exit(2, f"{self.tool}: {message}; tools/{self.tool} --help says what may stand here\n")
