"""A place in a file, and how it is shown."""

from __future__ import annotations

from dataclasses import dataclass

WIDEST = 100  # characters of a line that are shown


@dataclass(frozen=True)
class Place:
    """A file, and where there is one a line and a column, both counted from 1, the column in characters."""

    file: str
    line: int | None = None
    column: int | None = None
    text: str = ""  # the line
    length: int = 1  # how many characters are marked

    def __str__(self) -> str:
        return ":".join(str(part) for part in (self.file, self.line, self.column) if part is not None)

    def shown(self) -> str:
        """The line with a mark under the place; nothing where there is no line."""
        if self.line is None:
            return ""
        column = self.column or 1
        start = max(0, column - 1 - WIDEST // 2) if len(self.text) > WIDEST else 0
        cut = self.text[start : start + WIDEST].replace("\t", " ")
        before = "".join(" " for _ in range(column - 1 - start))
        margin = f"{self.line:>5} | "
        marked = "^" * max(1, min(self.length, len(cut) - len(before)))
        return f"{margin}{cut}\n{' ' * (len(margin) - 2)}| {before}{marked}"


def place_at_byte(file: str, content: bytes, at: int, length: int = 1) -> Place:
    """The place of the byte at this place of the file."""
    at = min(at, len(content))
    start = content.rfind(b"\n", 0, at) + 1
    end = content.find(b"\n", at)
    line = content[start : end if end >= 0 else len(content)]
    column = len(content[start:at].decode(errors="replace")) + 1
    return Place(file, content.count(b"\n", 0, at) + 1, column, line.decode(errors="replace").rstrip("\r"), length)


def place_in_line(file: str, content: bytes, line: int, column: int | None = None, length: int = 1) -> Place:
    """The place of a column of a line, or of its first character that isn't blank."""
    lines = content.split(b"\n")
    text = lines[line - 1].decode(errors="replace").rstrip("\r") if 1 <= line <= len(lines) else ""
    if column is None:
        column = len(text) - len(text.lstrip()) + 1 if text.strip() else 1
        length = max(1, len(text.strip()))
    return Place(file, line, column, text, length)
