"""Reads row files: sessions with what the program must reply. crates/tx_rows/README.md says how a row is written."""
from __future__ import annotations

import pathlib
import re
from dataclasses import dataclass, field
from typing import Dict, Iterator, List, Tuple

_ESCAPE = re.compile(rb"\\(x[0-9a-f]{2}|.)", re.DOTALL)
_ESCAPED = {b"\\": b"\\", b"n": b"\n", b"r": b"\r", b"t": b"\t", b"s": b" "}


def _unescaped(text: bytes) -> bytes:
    return _ESCAPE.sub(lambda match: bytes([int(match[1][1:], 16)]) if match[1][:1] == b"x" else _ESCAPED[match[1]],
                       text)


class Lines:
    """The lines of one mark, with a newline between two of them."""

    def __init__(self) -> None:
        self._pieces: List[bytes] = []
        self.there = False

    def add(self, rest: bytes) -> None:
        """What stands after a mark: text as it is, text with escapes, or text that is repeated."""
        if rest.startswith(b"*"):
            count, _, text = rest[1:].partition(b" ")
            self._pieces.append(_unescaped(text) * int(count))
        else:
            if self.there:
                self._pieces.append(b"\n")
            self._pieces.append(_unescaped(rest[2:]) if rest.startswith(b"\\ ") else rest[1:])
        self.there = True

    def text(self) -> bytes:
        """The lines without the end of the last one."""
        return b"".join(self._pieces)

    def ended(self) -> bytes:
        """The lines with their ends."""
        return self.text() + b"\n" if self.there else b""


@dataclass
class Row:
    """A row of some kind: files beforehand, what is asked, what is wanted, and saved files."""

    kind: str
    words: str
    number: int
    files: List[Tuple[str, Lines]] = field(default_factory=list)
    asked: Lines = field(default_factory=Lines)
    wanted: Lines = field(default_factory=Lines)
    saved: Dict[str, Lines] = field(default_factory=dict)

    def add(self, mark: bytes, rest: bytes) -> None:
        """A line with a mark."""
        if mark == b">":
            self.asked.add(rest)
        elif mark == b"<":
            (list(self.saved.values())[-1] if self.saved else self.wanted).add(rest)
        elif self.files:
            self.files[-1][1].add(rest)

    def begun(self) -> bool:
        return self.asked.there or self.wanted.there or bool(self.files)


def read_rows(path: pathlib.Path) -> Iterator[Row]:
    """The rows of a file in order."""
    row = Row("", "", 0)
    for number, line in enumerate(path.read_bytes().split(b"\n"), 1):
        mark, rest = line[:1], line[1:]
        if mark == b"#":
            continue
        if not mark or (mark != b"<" and row.kind != "run" and mark in b"|>" and row.wanted.there):
            if row.begun():
                yield row
            row = Row(row.kind, row.words, number)
        if mark and mark in b"|><":
            row.add(mark, rest)
        elif mark:
            word, _, words = line.decode().partition(" ")
            if word == "file":
                row.files.append((words, Lines()))
            elif word == "saved":
                row.saved[words] = Lines()
            else:
                if row.begun():
                    yield row
                row = Row(word, words, number)
    if row.begun():
        yield row
