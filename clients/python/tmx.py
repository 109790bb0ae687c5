"""Calls tmx, the editing core of GNU TeXmacs on a terminal, from Python.

    import tmx

    with tmx.open("letter.tm", styles=["letterhead.tm"]) as doc:
        for page in doc.show():
            print("\\n".join(page.rows))
        doc.go(doc.where(3, 0))
        doc.type("Dear α, ")
        doc.save("letter.tm")

Each method of `Document` is a command of docs/COMMANDS.md. It returns the reply as values. A refused command raises
`Refused`, and the document is as it was before. A program that ends raises `Ended` with its status. After the time
limit the program is ended and `TimedOut` is raised. The program is also ended where an interrupt comes before the whole
reply has been read.

A text of a document has bytes of its own. `encode` and `decode` convert them from and to Unicode. Where a method takes
a text or a tree, a `str` is a text in Unicode, `bytes` are a text in the document's bytes, and a `Tree` is a tree.

`python3 -m tmx --help` says what the command line does. The module needs Python 3.9 and a POSIX system. A `Document`
is used by one thread at a time.
"""
from __future__ import annotations

import argparse
import collections
import contextlib
import html
import itertools
import os
import pathlib
import re
import select
import subprocess
import sys
import tempfile
import time
import unicodedata
from dataclasses import dataclass
from types import TracebackType
from typing import Dict, Iterable, Iterator, List, NamedTuple, Optional, Sequence, Tuple, Type, Union

__all__ = [
    "Document", "Ended", "ErrorEntry", "Page", "ParseFault", "Place", "Refused", "Run", "TimedOut", "TmxError", "Tree",
    "buffer_name", "decode", "encode", "node", "open", "parse_path", "print_path", "text",
]

SCRIPT_LIMIT = 1 << 24
"""A program reads this many bytes of commands at most."""

STATUSES = {0: "Ok", 2: "Words", 3: "Missing", 4: "Refused", 5: "StoreFault", 6: "InputFault", 7: "OutputFault",
            8: "NoMemory", 9: "ScriptLong"}
"""The statuses of the program by their numbers. A number below 0 is the signal that ended it."""


# Text: the document's bytes and Unicode

_CHARACTERS: Dict[int, str] = {
    **dict(enumerate("`´ˆ˜¨˝˚ˇ˘")),
    **dict(zip((11, 12, 14, 15), "¸˛‹›")),
    **dict(enumerate("“”„«»–—\ufffd₀ıȷﬀﬁﬂﬃﬄ", 16)),
    **{byte: chr(byte) for byte in range(32, 127) if chr(byte) not in "<>"},
    127: "\u2010",
    **dict(enumerate("ĂĄĆČĎĚĘĞĹĽŁŃŇŊŐŔ", 128)),
    **dict(enumerate("ŘŚŠŞŤŢŰŮŸŹŽŻĲİđ§", 144)),
    **dict(enumerate("ăąćčďěęğĺľłńňŋőŕ", 160)),
    **dict(enumerate("řśšşťţűůÿźžżĳ¡¿£", 176)),
    **{byte: chr(byte) for byte in range(192, 256)},
    215: "Œ", 223: "ẞ", 247: "œ", 255: "ß",
}

_SYMBOLS: Dict[str, str] = {
    **dict(zip("alpha beta gamma delta epsilon zeta eta theta iota kappa lambda mu nu xi omicron pi rho".split(),
               "αβγδεζηθικλμνξοπρ")),
    **dict(zip("sigma tau upsilon phi chi psi omega".split(), "στυφχψω")),
    **dict(zip("Gamma Delta Theta Lambda Xi Pi Sigma Upsilon Phi Psi Omega".split(), "ΓΔΘΛΞΠΣΥΦΨΩ")),
    **dict(zip("less gtr leq geq neq times pm cdot".split(), "<>≤≥≠×±⋅")),
    **dict(zip("infty forall exists in rightarrow leftarrow ldots".split(), "∞∀∃∈→←…")),
}

# A later entry replaces an earlier one, so a quote ` is byte 96 and not byte 0.
_SPELLINGS: Dict[str, bytes] = {
    **{character: b"<%s>" % name.encode() for name, character in _SYMBOLS.items()},
    **{character: bytes([byte]) for byte, character in _CHARACTERS.items()},
}

_ITEM = re.compile(rb"[^\t\n\r<>]|<([!-;=?-~]{1,255})>")
_TEXT = re.compile(rb"(?:[^\t\n\r<>]+|<[!-;=?-~]{1,255}>)*")
_LABEL = re.compile(r"[A-Za-z0-9\-_+*:.?!=~@$%&^]{1,64}")


def encode(characters: str) -> bytes:
    """The document's bytes for Unicode text.

    A character without a byte or a name of its own becomes a symbol `<#HEX>`. `decode` gives the characters back.
    Raises ValueError for a control character, as a tab or a newline, and for a surrogate: no text holds these.
    """
    return b"".join(map(_spelling, characters))


def _spelling(character: str) -> bytes:
    known = _SPELLINGS.get(character)
    if known is not None:
        return known
    if unicodedata.category(character) in ("Cc", "Cs"):
        raise ValueError(f"no text holds the character U+{ord(character):04X}")
    return b"<#%X>" % ord(character)


def decode(data: bytes) -> str:
    """What the document's bytes show as, in Unicode. A symbol that has no character shows as it is written."""
    return "".join(shown for _, shown in _items(data))


def _items(data: bytes) -> Iterator[Tuple[int, str]]:
    """Each item of a text: the place where it begins, and what it shows as."""
    at = 0
    while at < len(data):
        item = _ITEM.match(data, at)
        if item is None:
            raise ValueError(f"no item of a text at byte {at}")
        yield at, _CHARACTERS[data[at]] if item[1] is None else _symbol(item[1].decode())
        at = item.end()


def _symbol(name: str) -> str:
    if re.fullmatch("#[0-9A-Fa-f]{1,6}", name):
        code = int(name[1:], 16)
        if code <= 0x10FFFF and unicodedata.category(chr(code)) not in ("Cc", "Cs"):
            return chr(code)
    return _SYMBOLS.get(name, f"<{name}>")


# Paths and places

Path = Tuple[int, ...]
"""The way from the root of a tree to a subtree: a child's number for each step down."""

PathLike = Union[str, Sequence[int]]
"""A path as numbers, or as `/0/2`."""


def parse_path(source: str) -> Path:
    """The path that is written as `/` or `/0/2`."""
    if not re.fullmatch(r"/|(?:/[0-9]{1,10}){1,400}", source, re.ASCII):
        raise ValueError(f"no path: {source!r}")
    return tuple(int(number) for number in source.split("/")[1:] if number)


def print_path(path: PathLike) -> str:
    """The path as a command has it."""
    if isinstance(path, str):
        path = parse_path(path)
    return "/" + "/".join(str(int(number)) for number in path)


class Place(NamedTuple):
    """A place in a tree. In a text the offset counts bytes. At a node it is 0 before the node and 1 after it."""

    path: Path
    offset: int

    def __str__(self) -> str:
        return print_path([*self.path, self.offset])

    @classmethod
    def parse(cls, source: str) -> Place:
        """The place that is written as a path, with the offset as its last number."""
        numbers = parse_path(source)
        if not numbers:
            raise ValueError(f"no place: {source!r}")
        return cls(numbers[:-1], numbers[-1])


# Trees

class ParseFault(ValueError):
    """Bytes that spell no tree. `kind` and `numbers` are those of docs/FORMATS.md, as `unclosed` and (17,)."""

    def __init__(self, kind: str, *numbers: int) -> None:
        super().__init__(" ".join([kind, *map(str, numbers)]))
        self.kind = kind
        self.numbers = numbers


@dataclass(frozen=True, eq=False, repr=False)
class Tree:
    """A tree of a document: a text, or a label with trees as its children. `text` and `node` make one."""

    text: Optional[bytes] = None
    label: Optional[str] = None
    children: Tuple[Tree, ...] = ()

    def __post_init__(self) -> None:
        if (self.text is None) == (self.label is None) or (self.text is not None and self.children):
            raise ValueError("a tree is a text, or a label with children")
        if self.text is not None and _matched(_TEXT, self.text, 0) < len(self.text):
            raise ValueError(f"no text: {self.text[:80]!r}")
        if self.label is not None and not _LABEL.fullmatch(self.label):
            raise ValueError(f"no label: {self.label[:80]!r}")

    @classmethod
    def parse(cls, source: Union[str, bytes]) -> Tree:
        """The tree that is written in the Scheme syntax, in the document's bytes. Raises ParseFault."""
        tree = _parsed(source.encode("latin-1") if isinstance(source, str) else bytes(source))
        _check_limits(tree)
        return tree

    def print(self) -> bytes:
        """The tree's canonical text in the Scheme syntax. It spells this tree alone."""
        pieces: List[bytes] = []
        todo: List[Union[Tree, bytes]] = [self]
        while todo:
            piece = todo.pop()
            if isinstance(piece, bytes):
                pieces.append(piece)
            elif piece.text is not None:
                pieces.append(b'"' + piece.text.replace(b"\\", b"\\\\").replace(b'"', b'\\"') + b'"')
            else:
                pieces.append(b"(" + str(piece.label).encode())
                todo.append(b")")
                for child in reversed(piece.children):
                    todo += [child, b" "]
        return b"".join(pieces)

    def at(self, path: PathLike) -> Tree:
        """The subtree that the path leads to. Raises IndexError where it leads to none."""
        tree = self
        for number in parse_path(path) if isinstance(path, str) else path:
            if number < 0:
                raise IndexError("a child's number is 0 or more")
            tree = tree.children[number]
        return tree

    def walk(self) -> Iterator[Tuple[Path, Tree]]:
        """Each subtree with its path, a node before its children."""
        todo: List[Tuple[Path, Tree]] = [((), self)]
        while todo:
            path, tree = todo.pop()
            yield path, tree
            todo += reversed([((*path, i), child) for i, child in enumerate(tree.children)])

    def __eq__(self, other: object) -> bool:
        return isinstance(other, Tree) and self.print() == other.print()

    def __hash__(self) -> int:
        return hash(self.print())

    def __repr__(self) -> str:
        return f"<Tree {self.print()[:200].decode('latin-1')}>"


TreeLike = Union[Tree, str, bytes]
"""A tree; or a text, as Unicode or in the document's bytes."""


def text(value: Union[str, bytes]) -> Tree:
    """The tree that is this text."""
    return Tree(text=encode(value) if isinstance(value, str) else bytes(value))


def node(label: str, *children: TreeLike) -> Tree:
    """The tree with this label and these children."""
    return Tree(label=label, children=tuple(map(_tree, children)))


def _tree(value: TreeLike) -> Tree:
    return value if isinstance(value, Tree) else text(value)


_WHITE = re.compile(rb"[\t\n\r ]*")
_LABEL_BYTES = re.compile(rb"[A-Za-z0-9\-_+*:.?!=~@$%&^]*")
_NAME_BYTE = rb'(?:[!#-;=?-\[\]-~]|\\["\\])'
_STRING = re.compile(rb'(?:[^"\\<>\t\n\r]+|\\["\\]|<' + _NAME_BYTE + rb"{1,255}>)*")
_OPEN_SYMBOL = re.compile(rb"<(" + _NAME_BYTE + rb"{0,255})")


def _parsed(data: bytes) -> Tree:
    stack: List[Tuple[str, List[Tree]]] = []
    at = _skip_white(data, 0)
    while True:
        if at == len(data):
            raise ParseFault("unclosed", at)
        tree: Optional[Tree] = None
        if data[at] == ord("("):
            label, at = _parse_label(data, _skip_white(data, at + 1))
            stack.append((label, []))
        elif data[at] == ord('"'):
            value, at = _parse_string(data, at + 1)
            tree = Tree(text=value)
        elif data[at] == ord(")") and stack:
            label, children = stack.pop()
            tree, at = Tree(label=label, children=tuple(children)), at + 1
        else:
            raise ParseFault("stray", at)
        at = _skip_white(data, at)
        if tree is not None and not stack:
            if at < len(data):
                raise ParseFault("after", at)
            return tree
        if tree is not None:
            stack[-1][1].append(tree)


def _skip_white(data: bytes, at: int) -> int:
    return _matched(_WHITE, data, at)


def _matched(pattern: re.Pattern[bytes], data: bytes, at: int) -> int:
    """Where the pattern, which also matches nothing, ends from this place on."""
    match = pattern.match(data, at)
    return at if match is None else match.end()


def _parse_label(data: bytes, at: int) -> Tuple[str, int]:
    end = _matched(_LABEL_BYTES, data, at)
    if end - at > 64:
        raise ParseFault("bad-label", at + 64)
    if end == len(data):
        raise ParseFault("unclosed", end)
    if end == at or data[end] not in b'\t\n\r "()':
        raise ParseFault("bad-label", end)
    return data[at:end].decode(), end


def _parse_string(data: bytes, at: int) -> Tuple[bytes, int]:
    end = _matched(_STRING, data, at)
    if data[end:end + 1] == b'"':
        return _unescaped(data[at:end]), end + 1
    symbol = _OPEN_SYMBOL.match(data, end)
    full = symbol is not None and len(_unescaped(symbol[1])) == 255
    if symbol is not None:
        end = symbol.end()
    if end == len(data):
        raise ParseFault("unclosed", end)
    if data[end] != ord("\\") or full:
        raise ParseFault("bad-text", end)
    if end + 1 == len(data):
        raise ParseFault("unclosed", end + 1)
    raise ParseFault("bad-escape", end + 1)


def _unescaped(data: bytes) -> bytes:
    return b"\\".join(piece.replace(b'\\"', b'"') for piece in data.split(b"\\\\"))


def _check_limits(tree: Tree) -> None:
    longest = widest = deepest = size = 0
    todo = [(tree, 1)]
    while todo:
        part, depth = todo.pop()
        length = len(part.text or b"")
        longest, size = max(longest, length), size + 1 + length
        widest, deepest = max(widest, len(part.children)), max(deepest, depth)
        todo += [(child, depth + 1) for child in part.children]
    for which, number, limit in (("text", longest, 1048575), ("arity", widest, 65535), ("depth", deepest, 400),
                                 ("size", size, 8000000)):
        if number > limit:
            raise ParseFault(f"limit {which}", number)


# Replies

class Page(NamedTuple):
    """A page: its number, counted from 1, and its rows."""

    number: int
    rows: List[str]


class ErrorEntry(NamedTuple):
    """An error of the document: the path of its paragraph, its kind, and its detail.

    The path is None where the error stands in no paragraph of the body. The kind ends at the first space: where a
    document has kinds of its own with a space, the rest of the kind stands in the detail.
    """

    path: Optional[Path]
    kind: str
    detail: Optional[str]


class Run(NamedTuple):
    """Cells of a row that look the same: the first column, the column after the last, and the attributes.

    Series and shape end at their first space. A colour may have spaces.
    """

    first: int
    last: int
    series: str
    shape: str
    color: str


def _error_entry(line: str) -> ErrorEntry:
    path, kind, *detail = line.split(" ", 2)
    return ErrorEntry(None if path == "-" else parse_path(path), kind, detail[0] if detail else None)


def _run(line: str) -> Run:
    first, last, series, shape, color = line.split(" ", 4)
    return Run(int(first), int(last), series, shape, color)


class TmxError(Exception):
    """What the program is the cause of."""


class Refused(TmxError):
    """A refused command. Nothing has changed.

    `line` is the reply, as `no path-end 2`. `kind` is the word after `no`. `fault` is what a tree has wrong, as
    `unclosed` or `limit depth`, and else empty. `numbers` are the numbers of the reply.
    """

    def __init__(self, line: str) -> None:
        super().__init__(line)
        words = line.split(" ")[1:]
        self.line = line
        self.kind = words[0]
        self.fault = " ".join(word for word in words[1:] if not word.isdigit())
        self.numbers = tuple(int(word) for word in words[1:] if word.isdigit())


class Ended(TmxError):
    """The program has ended.

    `status` is its number, as in `STATUSES`; below 0 it is the signal that ended the program. `line` is the line that
    the status has, as `missing no.tm`, or None.
    """

    def __init__(self, status: int, line: Optional[str] = None) -> None:
        name = f"signal {-status}" if status < 0 else f"status {status} {STATUSES.get(status, '')}".rstrip()
        super().__init__(f"tmx ended: {name}" + (f": {line}" if line is not None else ""))
        self.status = status
        self.line = line


class TimedOut(TmxError):
    """A reply didn't come within the time limit. The program was ended; what wasn't saved is lost."""


# The running program

class _Program:
    """A running program: bytes to it, and lines from it."""

    def __init__(self, words: Sequence[str]) -> None:
        # In a session of its own, so that an interrupt from the terminal doesn't end it.
        # What the program writes on the standard error, for people, isn't kept: the line of its status says it too.
        self.process = subprocess.Popen(words, stdin=subprocess.PIPE, stdout=subprocess.PIPE,
                                        stderr=subprocess.DEVNULL, bufsize=0, start_new_session=True)
        assert self.process.stdin is not None and self.process.stdout is not None
        self._stdin, self._stdout = self.process.stdin, self.process.stdout
        self._readable, self._writable = select.poll(), select.poll()
        self._readable.register(self._stdout, select.POLLIN)
        self._writable.register(self._stdin, select.POLLOUT)
        os.set_blocking(self._stdin.fileno(), False)
        self._read = bytearray()
        self.sent = 0

    def write(self, data: bytes, deadline: Optional[float]) -> None:
        """Sends bytes. Where the program has ended, the next `line` says so."""
        rest = memoryview(data)
        self.sent += len(data)
        while rest:
            try:
                rest = rest[os.write(self._stdin.fileno(), rest):]
            except BlockingIOError:
                _wait(self._writable, deadline)
            except BrokenPipeError:
                return

    def line(self, deadline: Optional[float]) -> Optional[bytes]:
        """The next line, without its end. None where the output has ended; half a line at its end is dropped."""
        looked = 0
        while True:
            end = self._read.find(b"\n", looked)
            if end >= 0:
                line = bytes(self._read[:end])
                del self._read[:end + 1]
                return line
            looked = len(self._read)
            _wait(self._readable, deadline)
            piece = os.read(self._stdout.fileno(), 1 << 20)
            if not piece:
                return None
            self._read += piece

    def finish(self, timeout: Optional[float]) -> int:
        """Ends the input, and returns the status."""
        self._stdin.close()
        try:
            status = self.process.wait(timeout)
        except subprocess.TimeoutExpired:
            self.kill()
            raise TimedOut("tmx didn't end") from None
        self._stdout.close()
        return status

    def kill(self) -> int:
        """Ends the program at once, and returns the status."""
        self.process.kill()
        self._stdin.close()
        self._stdout.close()
        return self.process.wait()


def _wait(poll: select.poll, deadline: Optional[float]) -> None:
    if deadline is None:
        poll.poll()
    elif not poll.poll(max(0.0, deadline - time.monotonic()) * 1000):
        raise TimedOut("no reply within the time limit")


# Documents

_LAST_LINES = (b"input", b"memory", b"script-long")
"""After one of these lines, which are no replies, the program ends with status 6, 8 or 9."""

_SHOW = re.compile(rb"pages ([0-9]+) rows ([0-9]+)")
_ERRORS = re.compile(rb"errors ([0-9]+)")
_PAGE = re.compile(rb"page ([0-9]{1,10})")
_NO_PAGE = re.compile(rb"no page [0-9]+")
_PAGE_HEAD = re.compile(r"page ([1-9][0-9]*)", re.ASCII)

FileName = Union[str, bytes, "os.PathLike[str]", "os.PathLike[bytes]"]


def open(file: FileName, styles: Iterable[FileName] = (), width: int = 80, height: int = 24,
         program: Optional[FileName] = None, timeout: Optional[float] = None) -> Document:
    """Opens a document and its style files in a new program.

    A page has `width` columns and `height` lines. `program` is the program's file; without one it is what the
    environment variable TMX names, or else `tmx` on the PATH. `timeout` is the time limit for each reply, in seconds;
    None is no limit. Raises Ended where the program refuses the files or the sizes, and OSError where there is no such
    program.
    """
    if isinstance(styles, (str, bytes)):
        raise TypeError("the styles are a list of files")
    path = os.fsdecode(program) if program is not None else os.environ.get("TMX") or "tmx"
    words = [path, f"--width={width}", f"--height={height}", "--"]
    return Document(words + [_file_word(name) for name in (file, *styles)], height, timeout)


def _file_word(file: FileName) -> str:
    name = os.fsdecode(file)
    return "./" + name if name.startswith("gen:") else name


def buffer_name(file: FileName) -> str:
    """The name by which `Document.at` selects the buffer of a file."""
    name = os.fsdecode(file).rpartition("/")[2]
    return name.rpartition(".")[0] or name


class Document:
    """An open document. `open` makes one."""

    def __init__(self, words: Sequence[str], height: int = 24, timeout: Optional[float] = None) -> None:
        """Starts the program with these words of a command line. `height` is that of the words."""
        self.timeout = timeout
        self.height = height
        self._ended: Optional[Ended] = None
        self._program = _Program(words)
        self._deadline: Optional[float] = None
        self._last: List[bytes] = []
        self._first_reply()

    def __enter__(self) -> Document:
        return self

    def __exit__(self, kind: Optional[Type[BaseException]], value: Optional[BaseException],
                 trace: Optional[TracebackType]) -> None:
        self.close()

    @property
    def process(self) -> subprocess.Popen[bytes]:
        """The running program."""
        return self._program.process

    @property
    def sent(self) -> int:
        """How many bytes of commands the program was given. After `SCRIPT_LIMIT` of them it ends with status 9."""
        return self._program.sent

    @property
    def remaining(self) -> int:
        """How many bytes of commands the program still takes."""
        return max(0, SCRIPT_LIMIT - self._program.sent)

    def close(self) -> None:
        """Ends the program. What wasn't saved is lost. A document that has ended can be closed."""
        if self._ended is None:
            self._ended = Ended(-9)
            self._ended = Ended(self._program.finish(self.timeout))

    # Lines and replies

    def ask(self, line: bytes) -> List[bytes]:
        """The lines of the reply to one line of a script, also where it is refused.

        Raises ValueError for what isn't one line, and for an empty line, which has no reply.
        """
        if not line or b"\n" in line or line.endswith(b"\r"):
            raise ValueError("a command is one line, without its end")
        if self._ended is not None:
            raise Ended(self._ended.status, self._ended.line)
        with self._whole_reply():
            if line == b"quit":
                self._quit()
                return []
            if line.startswith(b"attrs "):
                return self._ask_attrs(line)
            if _asks_page(line):
                return self._ask_page(line)
            return self._ask_counted(line)

    def _ask_counted(self, line: bytes) -> List[bytes]:
        """A reply of one line, or one whose first line says how many follow."""
        self._send(line)
        first = self._line()
        if first in _LAST_LINES:
            self._line()
        count = _SHOW.fullmatch(first) or _ERRORS.fullmatch(first)
        return [first] + [self._line() for _ in range(sum(map(int, count.groups())) if count else 0)]

    def _ask_attrs(self, line: bytes) -> List[bytes]:
        """The reply to `attrs`, which tells no count. Its lines never begin with `/`, as the reply to `cursor` does."""
        self._send(line, b"cursor")
        lines = [self._line()]
        while not lines[-1].startswith(b"/"):
            lines.append(self._line())
        return lines[:-1]

    def _ask_page(self, line: bytes) -> List[bytes]:
        """The reply to `page N`, which tells no count and whose rows may look like any reply.

        `cursor` and as many times `page 0` as a page has lines are asked after it. Rows can't hold that many lines
        `no page P`, nor end in a front of these replies, since the first of them is another one. So these replies are
        met only at their true place. None of them can be `no memory`, since the view was made before.
        """
        self._send(b"page 0", b"cursor")
        pages, place = self._line(), self._line()
        if not _NO_PAGE.fullmatch(pages):
            return [pages]
        end = [place] + [pages] * self.height
        self._send(line, b"cursor", *[b"page 0"] * self.height)
        lines: List[bytes] = []
        while lines[-len(end):] != end:
            lines.append(self._line())
        return lines[:-len(end)]

    def _send(self, *lines: bytes) -> None:
        self._deadline = None if self.timeout is None else time.monotonic() + self.timeout
        self._program.write(b"".join(line + b"\n" for line in lines), self._deadline)

    def _line(self) -> bytes:
        line = self._program.line(self._deadline)
        if line is None:
            status = self._program.finish(self.timeout)
            self._ended = Ended(status, _status_line(self._last) if status in (6, 8, 9) else None)
            raise self._ended
        self._last = [line]
        return line

    def _first_reply(self) -> None:
        """Asks for the cursor, to see that the program has opened its files. Else its output is one status line."""
        with self._whole_reply():
            self._send(b"cursor")
            line = self._program.line(self._deadline)
            if line is not None and line.startswith(b"/"):
                return
            lines: List[bytes] = []
            while line is not None:
                lines.append(line)
                line = self._program.line(self._deadline)
            self._ended = Ended(self._program.finish(self.timeout), _status_line(lines))
            raise self._ended

    @contextlib.contextmanager
    def _whole_reply(self) -> Iterator[None]:
        """Ends the program where a reply isn't read to its end, so that its rest is never taken for another one."""
        self._last = []
        try:
            yield
        except Ended:
            raise
        except BaseException:
            self._ended = Ended(self._program.kill())
            raise

    def _quit(self) -> None:
        self._send(b"quit")
        self._ended = Ended(self._program.finish(self.timeout))

    def _accepted(self, *words: object) -> List[str]:
        """The reply to a command. Raises Refused. A word is a number, a word, or bytes."""
        line = b" ".join(word if isinstance(word, bytes) else str(word).encode() for word in words)
        reply = [piece.decode("utf-8") for piece in self.ask(line)]
        if reply and reply[0].startswith("no "):
            raise Refused(reply[0])
        return reply

    # Edits of the selected buffer

    def assign(self, path: PathLike, tree: TreeLike) -> None:
        """The tree takes the place of the subtree."""
        self._accepted("assign", print_path(path), _tree(tree).print())

    def insert(self, path: PathLike, place: int, tree: TreeLike) -> None:
        """Puts a text into a text, or the children of a `tuple` among children, before the place."""
        self._accepted("insert", print_path(path), place, _tree(tree).print())

    def remove(self, path: PathLike, place: int, count: int) -> None:
        """Takes out so many bytes or children from the place on."""
        self._accepted("remove", print_path(path), place, count)

    def split(self, path: PathLike, child: int, place: int) -> None:
        """The child becomes two: what stands before its place, and the rest."""
        self._accepted("split", print_path(path), child, place)

    def join(self, path: PathLike, child: int) -> None:
        """The child and the next one become one."""
        self._accepted("join", print_path(path), child)

    def assign_node(self, path: PathLike, label: str) -> None:
        """The node has that label."""
        self._accepted("assign-node", print_path(path), label)

    def insert_node(self, path: PathLike, place: int, tree: TreeLike) -> None:
        """The subtree becomes a child of the node at that place of it. The node takes the subtree's place."""
        self._accepted("insert-node", print_path(path), place, _tree(tree).print())

    def remove_node(self, path: PathLike, child: int) -> None:
        """The child takes the place of the node."""
        self._accepted("remove-node", print_path(path), child)

    # History

    def undo(self) -> None:
        """Takes back the last edit that isn't undone, in whichever buffer."""
        self._accepted("undo")

    def undo_at(self, n: int) -> None:
        """Takes back the n-th last edit alone, the last one being 1, and leaves the later ones."""
        self._accepted("undo-at", n)

    def redo(self) -> None:
        """Takes back the last `undo`."""
        self._accepted("redo")

    # Buffers and files

    def at(self, name: str) -> None:
        """Selects the buffer of this name. `buffer_name` gives that of a file."""
        self._accepted("at", name)

    def tree(self) -> Tree:
        """The selected buffer's tree."""
        return Tree.parse(self._bytes(b"tree"))

    def save(self, name: str) -> int:
        """Saves the selected buffer, and returns the number of bytes.

        The syntax is Scheme where the name ends in `.scm` or `.stm`, and else TM. A name is 1 to 255 bytes of ASCII
        without a space; another one is refused.
        """
        return int(self._accepted("save", name)[0].split(" ")[1])

    def quit(self) -> int:
        """Ends the program as its last command, and returns its status."""
        self.ask(b"quit")
        assert self._ended is not None
        return self._ended.status

    # Cursor

    def go(self, place: Union[Place, PathLike]) -> None:
        """Moves the cursor to a place, or to what a path and the offset as its last number say."""
        self._accepted("go", str(place) if isinstance(place, Place) else print_path(place))

    def click(self, row: int, column: int) -> None:
        """Moves the cursor to the place of a cell."""
        self._accepted("click", row, column)

    def left(self) -> None:
        """Moves the cursor to the stop before it."""
        self._accepted("left")

    def right(self) -> None:
        """Moves the cursor to the stop after it."""
        self._accepted("right")

    def cursor(self) -> Place:
        """The cursor's place."""
        return Place.parse(self._accepted("cursor")[0])

    # Keys

    def type(self, characters: TreeLike) -> None:
        """Puts a text in at the cursor, which stands after it then."""
        self._accepted("type", _tree(characters).print())

    def backspace(self) -> None:
        """Takes out the item before the cursor, or joins the paragraph to the one before."""
        self._accepted("backspace")

    def enter(self) -> None:
        """The paragraph becomes two at the cursor."""
        self._accepted("enter")

    # Pages

    def show(self) -> List[Page]:
        """All pages."""
        first, *lines = self._accepted("show")
        count = int(first.split(" ")[1])
        pages = _split_pages(lines, count)
        return [self.page(number) for number in range(1, count + 1)] if pages is None else pages

    def page(self, number: int) -> Page:
        """One page. It takes the program more bytes of commands than `show`: seven for each line of a page."""
        _, *rows = self._accepted("page", number)
        return Page(number, rows)

    def errors(self) -> List[ErrorEntry]:
        """The errors of the document and its styles."""
        return [_error_entry(line) for line in self._accepted("errors")[1:]]

    def where(self, row: int, column: int) -> Place:
        """The place of a cell. Rows are counted over all pages."""
        return Place.parse(self._accepted("where", row, column)[0])

    def attrs(self, row: int) -> List[Run]:
        """The attributes of a row's cells, for each longest run of cells that look the same."""
        return [_run(line) for line in self._accepted("attrs", row)]

    def work(self) -> int:
        """How many steps the last making of the view took."""
        return int(self._accepted("work")[0].split(" ")[1])

    def _bytes(self, line: bytes) -> bytes:
        """A reply of one line in the document's bytes."""
        reply = self.ask(line)[0]
        if reply.startswith(b"no "):
            raise Refused(reply.decode())
        return reply


def _status_line(lines: List[bytes]) -> Optional[str]:
    return b"\n".join(lines).decode("utf-8", "surrogateescape") if lines else None


def _asks_page(line: bytes) -> bool:
    """Whether the line is a `page N` that may show a page. Page 0 is always refused."""
    match = _PAGE.fullmatch(line)
    return match is not None and 0 < int(match[1]) < 1 << 32


def _split_pages(lines: List[str], count: int) -> Optional[List[Page]]:
    """The pages of the lines. None where a row looks like the head of a page, so that it isn't clear where one ends."""
    matches = map(_PAGE_HEAD.fullmatch, lines)
    heads = [i for i, match in enumerate(matches) if match is not None and int(match[1]) <= count]
    if len(heads) != count:
        return None
    ends = heads[1:] + [len(lines)]
    return [Page(number, lines[head + 1:end]) for number, (head, end) in enumerate(zip(heads, ends), 1)]


# The command line

def plain_document(plain: str) -> Tree:
    """The document of a plain text. Empty lines end paragraphs; inside one, a run of white is one space."""
    lines = plain.replace("\r\n", "\n").replace("\r", "\n").strip("\t\n ")
    paragraphs = re.split(r"\n[\t ]*\n[\t\n ]*", lines)
    return node("document", *[re.sub(r"[\t\n ]+", " ", paragraph) for paragraph in paragraphs])


def _from_utf8(options: argparse.Namespace) -> Iterator[str]:
    source = pathlib.Path(options.files[0]).read_bytes()
    tree = plain_document(source.decode("utf-8-sig"))
    if options.output is None:
        sys.stdout.buffer.write(tree.print() + b"\n")
    else:
        _save_as(tree, options)
    return iter(())


def _save_as(tree: Tree, options: argparse.Namespace) -> None:
    """Writes the tree by the program, which may not save under every name, and then copies the file."""
    with tempfile.TemporaryDirectory() as folder:
        opened, saved = pathlib.Path(folder, "opened.scm"), pathlib.Path(folder, "saved.tm")
        if options.output.endswith((".scm", ".stm")):
            saved = saved.with_suffix(".scm")
        opened.write_bytes(tree.print())
        with open(opened, program=options.program, timeout=options.timeout) as doc:
            doc.save(str(saved))
        pathlib.Path(options.output).write_bytes(saved.read_bytes())


def _text(doc: Document, _: argparse.Namespace) -> Iterator[str]:
    for page in doc.show():
        yield from page.rows


def _macros(doc: Document, _: argparse.Namespace) -> Iterator[str]:
    used = collections.Counter(part.label for _, part in doc.tree().walk() if part.label is not None)
    undefined = {entry.detail for entry in doc.errors() if entry.kind == "undefined-tag" and entry.detail is not None}
    for label in sorted(undefined.union(used)):
        yield f"{label} {used[label]}" + (" undefined" if label in undefined else "")


def _grep(doc: Document, options: argparse.Namespace) -> Iterator[str]:
    for path, part in doc.tree().walk():
        starts: List[int] = []
        line = ""
        for start, shown in _items(part.text or b""):
            starts += [start] * len(shown)
            line += shown
        for match in re.finditer(re.escape(options.grep), line):
            yield f"{Place(path, starts[match.start()])}: {line}"


_HTML_HEAD = """<!DOCTYPE html>
<html>
<head>
<meta charset="utf-8">
<title>{}</title>
<style>p {{ font-family: monospace; white-space: pre-wrap; margin: 0 }}</style>
</head>
<body>"""


def _html(doc: Document, options: argparse.Namespace) -> Iterator[str]:
    """A paragraph for each of the body, with a line for each of its rows."""
    body = _body_path(doc.tree())
    rows = enumerate(row for page in doc.show() for row in page.rows)
    yield _HTML_HEAD.format(html.escape(options.files[0]))
    for _, group in itertools.groupby(rows, lambda row: doc.where(row[0], 0).path[:len(body) + 1]):
        yield "<p>" + "\n".join(_markup(row, doc.attrs(number)) for number, row in group) + "</p>"
    yield "</body>\n</html>"


def _body_path(tree: Tree) -> Path:
    """The path of what holds the paragraphs."""
    if tree.label == "document":
        for i, child in enumerate(tree.children):
            if child.label == "body":
                return (i, 0)
    return ()


def _markup(row: str, runs: List[Run]) -> str:
    """A row in HTML. Where its columns aren't those of the runs, it is plain."""
    clusters = _clusters(row)
    edges = {column for column, _ in clusters} | {column + _cluster_width(cluster) for column, cluster in clusters}
    if not all(run.first in edges and run.last in edges for run in runs):
        return html.escape(row)
    looks = [(_look(column, runs), cluster) for column, cluster in clusters]
    groups = itertools.groupby(looks, lambda pair: pair[0])
    return "".join(_tagged(html.escape("".join(cluster for _, cluster in group)), look) for look, group in groups)


def _look(column: int, runs: List[Run]) -> Tuple[str, str, str]:
    for run in runs:
        if run.first <= column < run.last:
            return run.series, run.shape, run.color
    return "medium", "right", "black"


def _tagged(piece: str, look: Tuple[str, str, str]) -> str:
    series, shape, color = look
    if series == "bold":
        piece = f"<b>{piece}</b>"
    if shape == "italic":
        piece = f"<i>{piece}</i>"
    if color != "black" and re.fullmatch("#[0-9A-Fa-f]{3,8}|[A-Za-z ]+", color):
        piece = f'<span style="color: {color.replace(" ", "")}">{piece}</span>'
    return piece


def _clusters(row: str) -> List[Tuple[int, str]]:
    """The clusters of a row with their columns, as far as the standard library knows them."""
    clusters: List[Tuple[int, str]] = []
    column = 0
    for character in row:
        if clusters and _continues(clusters[-1][1], character):
            start, cluster = clusters[-1]
            clusters[-1] = (start, cluster + character)
        else:
            clusters.append((column, character))
        column = clusters[-1][0] + _cluster_width(clusters[-1][1])
    return clusters


def _cluster_width(cluster: str) -> int:
    return min(2, sum(map(_width, cluster)))


def _continues(cluster: str, character: str) -> bool:
    """Whether the character goes on with the cluster: an accent, a joined one, a skin colour, half of a flag."""
    if _width(character) == 0 or unicodedata.category(character) == "Mc" or cluster.endswith("\u200d"):
        return True
    if "\U0001F3FB" <= character <= "\U0001F3FF":
        return True
    return len(cluster) == 1 and all("\U0001F1E6" <= half <= "\U0001F1FF" for half in (cluster, character))


def _width(character: str) -> int:
    if unicodedata.category(character) in ("Mn", "Me", "Cf") or "\u1160" <= character <= "\u11ff":
        return 0
    return 2 if unicodedata.east_asian_width(character) in "WF" else 1


def _options(arguments: Optional[Sequence[str]]) -> argparse.Namespace:
    parser = argparse.ArgumentParser(prog="python3 -m tmx", description="Reads TeXmacs documents with tmx.")
    parser.add_argument("files", nargs="+", metavar="FILE", help="the document, and its style files after it")
    wanted = parser.add_mutually_exclusive_group(required=True)
    wanted.add_argument("--text", dest="command", action="store_const", const=_text,
                        help="print the rows of all pages")
    wanted.add_argument("--html", dest="command", action="store_const", const=_html,
                        help="print the paragraphs with bold, italics and colours")
    wanted.add_argument("--macros", dest="command", action="store_const", const=_macros,
                        help="print each tag, how often the document has it, and whether it is undefined")
    wanted.add_argument("--grep", metavar="TEXT", help="print the places where the document's texts have TEXT")
    wanted.add_argument("--from-utf8", dest="command", action="store_const", const=_from_utf8,
                        help="FILE is a plain text in UTF-8; print it as a document in the Scheme syntax")
    parser.add_argument("--output", metavar="NAME", help="with --from-utf8: save the document, as TM or as .scm")
    parser.add_argument("--width", type=int, default=80, metavar="N", help="columns of a page, 20 to 500 (80)")
    parser.add_argument("--height", type=int, default=24, metavar="N", help="lines of a page, 5 to 500 (24)")
    parser.add_argument("--program", metavar="FILE", help="the program ($TMX, or tmx on the PATH)")
    parser.add_argument("--timeout", type=float, metavar="SECONDS", help="the time limit for each reply (none)")
    options = parser.parse_intermixed_args(arguments)
    if options.grep == "":
        parser.error("--grep needs a text")
    if options.command is _from_utf8 and len(options.files) > 1:
        parser.error("--from-utf8 takes one file")
    if options.output is not None and options.command is not _from_utf8:
        parser.error("--output goes with --from-utf8")
    return options


def _printed(options: argparse.Namespace) -> Iterator[str]:
    if options.command is _from_utf8:
        yield from _from_utf8(options)
        return
    file, *styles = options.files
    with open(file, styles, options.width, options.height, options.program, options.timeout) as doc:
        yield from (options.command or _grep)(doc, options)


def main(arguments: Optional[Sequence[str]] = None) -> int:
    """The command line. Returns its status: 0; 1 for a fault and where --grep finds nothing; or that of the program."""
    options = _options(arguments)
    count = 0
    try:
        for line in _printed(options):
            sys.stdout.buffer.write(line.encode() + b"\n")
            count += 1
        sys.stdout.buffer.flush()
    except BrokenPipeError:
        os.dup2(os.open(os.devnull, os.O_WRONLY), sys.stdout.fileno())
        return 1
    except (TmxError, OSError, ValueError) as fault:
        sys.stdout.buffer.flush()
        print(f"tmx: {fault}", file=sys.stderr)
        return fault.status if isinstance(fault, Ended) and fault.status > 0 else 1
    return 1 if options.grep is not None and count == 0 else 0


if __name__ == "__main__":
    sys.exit(main())
