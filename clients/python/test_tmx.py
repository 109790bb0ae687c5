"""Tests of the module against a built program, which the environment variable TMX names.

The sessions of crates/tx_rows/data, or of the folder that TMX_ROWS names, are among them.
"""
from __future__ import annotations

import os
import pathlib
import resource
import signal
import stat
import subprocess
import sys
import tempfile
import threading
import time
import unicodedata
import unittest
from typing import Callable, Iterator, List, Optional, Tuple, Union

import rows
import tmx
from tmx import Place, Tree, node, text

HERE = pathlib.Path(__file__).resolve().parent
ROOT = HERE.parent.parent
PROGRAM = os.path.abspath(os.environ.get("TMX", ROOT / "crates" / "tmx" / "out" / "tmx"))
ROWS = pathlib.Path(os.environ.get("TMX_ROWS", ROOT / "crates" / "tx_rows" / "data"))
LIMIT = 120.0
"""Seconds for a reply. The machine may be crowded."""

Value = Union[str, bytes]


class InFolder(unittest.TestCase):
    """Tests in a new folder, where names of files lead."""

    def setUp(self) -> None:
        self._folder = tempfile.TemporaryDirectory()
        self._before = os.getcwd()
        os.chdir(self._folder.name)

    def tearDown(self) -> None:
        os.chdir(self._before)
        self._folder.cleanup()

    def write(self, name: str, value: Value) -> str:
        """Makes a file."""
        path = pathlib.Path(name)
        path.parent.mkdir(parents=True, exist_ok=True)
        path.write_bytes(value.encode() if isinstance(value, str) else value)
        return name

    def open(self, source: Value, name: str = "d.scm", width: int = 80, height: int = 24,
             timeout: Optional[float] = LIMIT) -> tmx.Document:
        """Opens a document with that text."""
        return tmx.open(self.write(name, source), (), width, height, PROGRAM, timeout)

    def refused(self, call: Callable[[], object]) -> str:
        """The line with which a call is refused."""
        with self.assertRaises(tmx.Refused) as caught:
            call()
        return caught.exception.line

    def ended(self, call: Callable[[], object]) -> Tuple[int, Optional[str]]:
        """The status and line with which the program ends in a call."""
        with self.assertRaises(tmx.Ended) as caught:
            call()
        return caught.exception.status, caught.exception.line

    def wrapper(self, line: str) -> str:
        """A script that starts the program in another way."""
        name = self.write("wrapper", f'#!/bin/sh\n{line.replace("TMX", PROGRAM)}\n')
        os.chmod(name, stat.S_IRWXU)
        return os.path.abspath(name)


class Texts(InFolder):
    def test_encode(self) -> None:
        for characters, data in [
            ("abc", b"abc"), ("", b""), ('"\\|', b'"\\|'), ("a<b>c", b"a<less>b<gtr>c"),
            ("α≤Ω", b"<alpha><leq><Omega>"),
            ("é", b"\xe9"), ("Œœßẞ", b"\xd7\xf7\xff\xdf"), ("×÷", b"<times><#F7>"), ("中", b"<#4E2D>"),
            ("“”", b"\x10\x11"),
            ("`", b"`"), ("ﬃ", b"\x1e"), ("€", b"<#20AC>"), ("😀", b"<#1F600>"), ("ς", b"<#3C2>"),
        ]:
            self.assertEqual(tmx.encode(characters), data)
            self.assertEqual(tmx.decode(data), characters)

    def test_decode(self) -> None:
        for data, characters in [
            (b"<foo>", "<foo>"), (b"<#e9>", "é"), (b"<#0>", "<#0>"), (b"<#9F>", "<#9F>"), (b"<#A0>", "\xa0"),
            (b"<#D800>", "<#D800>"), (b"<#110000>", "<#110000>"), (b"<#0000041>", "<#0000041>"),
            (b"<#10FFFF>", "\U0010ffff"),
            (b"<Alpha>", "<Alpha>"), (b"\x00", "`"), (b"\x7f", "\u2010"),
        ]:
            self.assertEqual(tmx.decode(data), characters)

    def test_each_character_comes_back(self) -> None:
        for code in range(0x110000):
            character = chr(code)
            if unicodedata.category(character) in ("Cc", "Cs"):
                with self.assertRaises(ValueError):
                    tmx.encode(character)
            elif tmx.decode(tmx.encode(character)) != character:
                self.fail(f"U+{code:04X}")

    def test_no_text(self) -> None:
        for data in (b"a\n", b"<", b">", b"<>", b"<a b>", b"\t", b"<" + b"a" * 256 + b">"):
            with self.assertRaises(ValueError):
                tmx.decode(data)
            with self.assertRaises(ValueError):
                text(data)

    def test_as_the_program_shows_them(self) -> None:
        data = [bytes([byte]) for byte in range(256) if bytes([byte]) not in b"\t\n\r<>"]
        names = [*tmx._SYMBOLS, "foo", "#e9", "#3C2", "#2028", "#9F", "#A0", "#D7FF", "#D800", "#10FFFF", "#110000"]
        data += [b"<%s>" % name.encode() for name in names]
        document = node("document", *[b"x%sx" % item for item in data])
        with self.open(document.print(), height=500) as doc:
            self.assertEqual(doc.page(1).rows, [f"x{tmx.decode(item)}x" for item in data])


class Trees(unittest.TestCase):
    def test_parse_and_print(self) -> None:
        tree = Tree.parse(b' ( document"one"(em "t\\"w\\\\o"\n) ( f)) ')
        self.assertEqual(tree.print(), b'(document "one" (em "t\\"w\\\\o") (f))')
        self.assertEqual(tree, node("document", "one", node("em", b't"w\\o'), node("f")))
        self.assertEqual(hash(tree), hash(Tree.parse(tree.print())))
        self.assertNotEqual(tree, node("document"))
        self.assertNotEqual(tree, "document")
        self.assertEqual(tree.at("/1/0"), text('t"w\\o'))
        self.assertEqual(tree.at([]), tree)
        self.assertEqual([path for path, _ in tree.walk()], [(), (0,), (1,), (1, 0), (2,)])
        self.assertIn("document", repr(tree))
        for path in ("/3", "/0/0"):
            with self.assertRaises(IndexError):
                tree.at(path)
        with self.assertRaises(IndexError):
            tree.at([-1])

    def test_no_tree(self) -> None:
        for label in ("", "a b", "a" * 65, "é", "a\n"):
            with self.assertRaises(ValueError):
                node(label)
        with self.assertRaises(ValueError):
            Tree()
        with self.assertRaises(ValueError):
            Tree(text=b"a", label="b")

    def test_faults(self) -> None:
        for source, fault in [
            (b'(document "hello"', "unclosed 17"), (b'"a\\"', "unclosed 4"), (b"()", "bad-label 1"),
            (b"(a;)", "bad-label 2"),
            (b"(" + b"a" * 65 + b")", "bad-label 65"), (b'"\\a"', "bad-escape 2"), (b'"<a b>"', "bad-text 3"),
            (b'"a>b"', "bad-text 2"), (b'"<' + b"a" * 255 + b"\\", "bad-text 257"), (b"(a) b", "after 4"),
            (b'"<' + b"a" * 256 + b'>"', "bad-text 257"), (b"(f a)", "stray 3"), (b"", "unclosed 0"),
            (b'"a\tb', "bad-text 2"),
            (b'"<a\\', "unclosed 4"), (b'"<a\\x', "bad-escape 4"), (b'"<>"', "bad-text 2"), (b'"<"', "bad-text 2"),
            (b"(" + b"a" * 64, "unclosed 65"), (b")", "stray 0"), (b'(f")', "unclosed 4"),
            (b'"' + b"a" * 1048576 + b'"', "limit text 1048576"), (b"(f" + b'""' * 65536 + b")", "limit arity 65536"),
            (b"(f" * 400 + b'""' + b")" * 400, "limit depth 401"), (b"(a" * 300000, "unclosed 600000"),
            (b"(f" + b'"%s"' % (b"a" * 1000000) * 8 + b")", "limit size 8000009"),
        ]:
            with self.assertRaises(tmx.ParseFault) as caught:
                Tree.parse(source)
            self.assertEqual(str(caught.exception), fault)

    @unittest.skipUnless(ROWS.is_dir(), f"there is no {ROWS}")
    def test_rows(self) -> None:
        """The rows of bytes in the Scheme syntax."""
        count = 0
        for row in _rows(("read", "judge"), "scheme"):
            if len(row.asked.text()) > 20000:
                continue
            try:
                reply = Tree.parse(row.asked.text()).print()
                reply = b"tree" if row.kind == "judge" else reply
            except tmx.ParseFault as fault:
                reply = str(fault).encode()
            self.assertEqual(reply, row.wanted.text(), row.asked.text()[:200])
            count += 1
        self.assertGreater(count, 100)

    def test_paths(self) -> None:
        for path, written in [((), "/"), ((0, 2), "/0/2")]:
            self.assertEqual(tmx.parse_path(written), path)
            self.assertEqual(tmx.print_path(path), written)
            self.assertEqual(tmx.print_path(written), written)
        for written in ("", "0", "/a", "//", "/0/", "/0 1", "/1\n", "/12345678901", "/١"):
            with self.assertRaises(ValueError):
                tmx.parse_path(written)
        self.assertEqual(Place.parse("/0/2"), Place((0,), 2))
        self.assertEqual(str(Place((), 1)), "/1")
        with self.assertRaises(ValueError):
            Place.parse("/")


class Commands(InFolder):
    def test_edits(self) -> None:
        edits: List[Tuple[Callable[[tmx.Document], None], str]] = [
            (lambda doc: doc.assign("/1", "x"), '(document "abc" "x")'),
            (lambda doc: doc.insert("/0", 1, "xy"), '(document "axybc" (em "d"))'),
            (lambda doc: doc.insert([], 1, node("tuple", "p", "q")), '(document "abc" "p" "q" (em "d"))'),
            (lambda doc: doc.remove([0], 0, 2), '(document "c" (em "d"))'),
            (lambda doc: doc.remove("/", 0, 1), '(document (em "d"))'),
            (lambda doc: doc.split("/", 0, 1), '(document "a" "bc" (em "d"))'),
            (lambda doc: doc.split("/", 1, 0), '(document "abc" (em) (em "d"))'),
            (lambda doc: doc.assign_node("/1", "strong"), '(document "abc" (strong "d"))'),
            (lambda doc: doc.insert_node((0,), 1, node("f", "x", "y")), '(document (f "x" "abc" "y") (em "d"))'),
            (lambda doc: doc.remove_node("/1", 0), '(document "abc" "d")'),
        ]
        for edit, after in edits:
            with self.open('(document "abc" (em "d"))') as doc:
                edit(doc)
                self.assertEqual(doc.tree(), Tree.parse(after))
                doc.undo()
                self.assertEqual(doc.tree(), Tree.parse('(document "abc" (em "d"))'))
                doc.redo()
                self.assertEqual(doc.tree(), Tree.parse(after))
        with self.open('(document "ab" "c" (f "x") (f "y"))') as doc:
            doc.join("/", 2)
            doc.join("/", 0)
            self.assertEqual(doc.tree().print(), b'(document "abc" (f "x" "y"))')

    def test_undo_at(self) -> None:
        with self.open('(document "a" "b")') as doc:
            doc.insert("/0", 1, "x")
            doc.insert("/1", 1, "y")
            doc.insert("/1", 2, "z")
            doc.undo_at(3)
            self.assertEqual(doc.tree().print(), b'(document "a" "byz")')
            doc.undo()
            self.assertEqual(doc.tree().print(), b'(document "ax" "byz")')
            with self.assertRaises(tmx.Refused) as missing:
                doc.undo_at(0)
            self.assertEqual(missing.exception.kind, "undo")
        with self.open('(document "a")') as doc:
            doc.insert("/0", 1, "xy")
            doc.insert("/0", 2, "-")
            with self.assertRaises(tmx.Refused) as entangled:
                doc.undo_at(2)
            self.assertEqual((entangled.exception.kind, entangled.exception.numbers), ("entangled", (1,)))

    def test_buffers_and_files(self) -> None:
        self.write("d.scm", '(document (style "s") (body (document (hi "x"))))')
        self.write("s.scm", '(document (assign "hi" (macro "x" (concat "Hi " (arg "x")))))')
        with tmx.open("d.scm", ["s.scm"], program=PROGRAM, timeout=LIMIT) as doc:
            doc.at(tmx.buffer_name("s.scm"))
            doc.assign("/0/1/1/0", "Yo ")
            self.assertEqual(doc.show(), [tmx.Page(1, ["Yo x"])])
            self.assertEqual(doc.save("t.tm"), 33)
            self.assertEqual(doc.quit(), 0)
            self.assertEqual(self.ended(doc.cursor), (0, None))
        self.assertEqual(pathlib.Path("t.tm").read_bytes(), b"<assign|hi|<macro|x|Yo <arg|x>>>\n")

    def test_cursor(self) -> None:
        with self.open('(document "a<alpha>" (f "b"))') as doc:
            self.assertEqual(doc.cursor(), Place((0,), 0))
            doc.right()
            doc.right()
            self.assertEqual(doc.cursor(), Place((0,), 8))
            doc.click(1, 3)
            self.assertEqual(doc.cursor(), Place((1, 0), 0))
            doc.go("/1/1")
            self.assertEqual(doc.cursor(), Place((1,), 1))
            doc.left()
            self.assertEqual(doc.cursor(), Place((0,), 0))
            self.assertEqual(self.refused(doc.left), "no start")
            doc.go(Place((0,), 8))
            self.assertEqual(doc.cursor(), Place((0,), 8))

    def test_keys(self) -> None:
        with self.open('(document "abc" (concat "d" (em "e")))') as doc:
            doc.go("/0/1")
            doc.type("α")
            self.assertEqual(doc.cursor(), Place((0,), 8))
            doc.backspace()
            doc.enter()
            self.assertEqual(doc.tree().print(), b'(document "a" "bc" (concat "d" (em "e")))')
            doc.backspace()
            doc.go("/1/0/1")
            doc.enter()
            self.assertEqual(doc.tree().print(), b'(document "abc" (concat "d") (concat "" (em "e")))')

    def test_pages(self) -> None:
        with self.open("an <em|important> note\n\n<g>\n", "a.tm") as doc:
            self.assertEqual(doc.show(), [tmx.Page(1, ["an important note", "<g>"])])
            self.assertEqual(doc.page(1), tmx.Page(1, ["an important note", "<g>"]))
            self.assertEqual(doc.attrs(0), [tmx.Run(0, 3, "medium", "right", "black"),
                                            tmx.Run(3, 12, "medium", "italic", "black"),
                                            tmx.Run(12, 17, "medium", "right", "black")])
            self.assertEqual(doc.where(0, 5), Place((0, 1, 0), 2))
            self.assertEqual(doc.errors(), [tmx.ErrorEntry((1,), "undefined-tag", "g")])
            self.assertGreater(doc.work(), 0)
        with self.open("(document)") as doc:
            self.assertEqual(doc.show(), [])
            self.assertEqual(self.refused(lambda: doc.page(1)), "no page 0")
        source = '(document (style "x") (body (document "" (concat "a" (hspace "2spc") "b") (error "k"))))'
        with self.open(source) as doc:
            self.assertEqual(doc.attrs(0), [])
            self.assertEqual([run[:2] for run in doc.attrs(1)], [(0, 1), (3, 4)])
            self.assertEqual(doc.errors(), [tmx.ErrorEntry(None, "undefined-style", "x"),
                                            tmx.ErrorEntry((1, 0, 2), "bad", "error")])

    def test_attributes_with_spaces(self) -> None:
        with self.open('(document (with "color" "dark green" "font-series" "" "a") (error "" "why"))') as doc:
            self.assertEqual(doc.attrs(0), [tmx.Run(0, 1, "", "right", "dark green")])
            self.assertEqual(doc.errors(), [tmx.ErrorEntry((1,), "", "why")])

    def test_work(self) -> None:
        with self.open('(document (assign "n" "1") "text" (value "n"))') as doc:
            doc.page(1)
            doc.assign("/0/1", "2")
            doc.page(1)
            self.assertEqual(doc.work(), 13)
            doc.insert("/", 0, node("tuple", "x"))
            self.assertEqual(doc.work(), 3)

    def test_sizes(self) -> None:
        self.write("d.scm", node("document", *"abcdef").print())
        with tmx.open("d.scm", width=20, height=5, program=PROGRAM, timeout=LIMIT) as doc:
            self.assertEqual([len(page.rows) for page in doc.show()], [5, 1])
            self.assertEqual(doc.page(2), tmx.Page(2, ["f"]))
            self.assertEqual(self.refused(lambda: doc.where(0, 20)), "no cell 6 20")

    def test_texts_with_quotes_and_symbols(self) -> None:
        for value in ('"', '\\', '""\\"', '<α> "β" \\', "“quoted” \\n", "a  b ", "", "no args 3", "ok", "(f)", ";",
                      "中\u0301"):
            with self.open('(document "x")') as doc:
                doc.assign("/0", value)
                self.assertEqual(tmx.decode(doc.tree().at("/0").text or b""), value)
                doc.go(Place((0,), 0))
                doc.type(value)
                self.assertEqual(tmx.decode(doc.tree().at("/0").text or b""), value * 2)
                doc.save("t.tm")
                doc.save("t.scm")
                saved = doc.tree()
            for name in ("t.tm", "t.scm"):
                with tmx.open(name, program=PROGRAM, timeout=LIMIT) as doc:
                    self.assertEqual(doc.tree(), saved)

    def test_one_line_is_one_command(self) -> None:
        with self.open('(document "x")') as doc:
            for line in (b"", b"\r", b"cursor\ncursor", b"cursor\n", b"cursor\r"):
                with self.assertRaises(ValueError):
                    doc.ask(line)
            with self.assertRaises(ValueError):
                doc.save("a\nquit")
            with self.assertRaises(ValueError):
                doc.type("a\nquit")
            with self.assertRaises(ValueError):
                doc.remove("/ 0 1\n", 0, 1)
            self.assertEqual(doc.ask(b"tree"), [b'(document "x")'])
            self.assertEqual(doc.ask(b"attrs 0"), [b"0 1 medium right black"])
            self.assertEqual(doc.ask(b"page 1"), [b"page 1", b"x"])
            self.assertEqual(doc.ask(b"page 01"), [b"page 1", b"x"])
            self.assertEqual(doc.ask(b"quit"), [])


class Refusals(InFolder):
    def test_lines(self) -> None:
        with self.open('(document "a<beta>b" (em "c"))') as doc:
            before = doc.tree()
            for line, reply in REFUSED_LINES:
                self.assertEqual(doc.ask(line.encode()), [reply.encode()], line)
            self.assertEqual(doc.tree(), before)

    def test_methods(self) -> None:
        with self.open('(document "a<beta>b" (em "c"))') as doc:
            before = doc.tree()
            for call, reply in [
                (lambda: doc.page(1 << 32), "no args 14"), (lambda: doc.page(-1), "no args 5"),
                (lambda: doc.save("a b"), "no args 6"), (lambda: doc.save(""), "no args 5"),
                (lambda: doc.save("é"), "no args 5"), (lambda: doc.assign_node("/1", "a;b"), "no args 16"),
                (lambda: doc.type(node("f")), "no args 5"), (lambda: doc.at("x"), "no buffer"),
                (doc.undo, "no undo"), (doc.redo, "no redo"), (lambda: doc.assign("/5", "x"), "no path-end 0"),
                (lambda: doc.go("/"), "no path-end 0"), (lambda: doc.insert("/0", 0, node("em")), "no not-string"),
                (lambda: doc.insert("/1", 0, "x"), "no not-node"),
                (lambda: doc.insert_node("/0", 0, "x"), "no not-node"),
                (lambda: doc.remove("/0", 7, 2), "no bad-place 8"), (lambda: doc.join("/", 1), "no bad-place 2"),
                (lambda: doc.split("/", 1, 2), "no bad-place 1"), (lambda: doc.remove_node("/1", 1), "no bad-place 1"),
                (lambda: doc.join("/", 0), "no differ"), (lambda: doc.go("/0/3"), "no cuts-symbol 3"),
                (doc.backspace, "no start"), (doc.left, "no start"), (lambda: doc.where(9, 0), "no cell 2 80"),
                (lambda: doc.click(0, 80), "no cell 2 80"), (lambda: doc.attrs(2), "no cell 2 80"),
                (lambda: doc.page(0), "no page 1"), (lambda: doc.page(2), "no page 1"),
                (lambda: doc.save("none/x.tm"), "no store"),
            ]:
                self.assertEqual(self.refused(call), reply)
            self.assertEqual(doc.tree(), before)

    def test_kind_and_numbers(self) -> None:
        for line, kind, fault, numbers in [
            ("no args 4", "args", "", (4,)), ("no undo", "undo", "", ()), ("no cell 2 80", "cell", "", (2, 80)),
            ("no tree unclosed 17", "tree", "unclosed", (17,)),
            ("no tree limit depth 401", "tree", "limit depth", (401,)),
        ]:
            refusal = tmx.Refused(line)
            self.assertEqual((refusal.kind, refusal.fault, refusal.numbers, str(refusal)), (kind, fault, numbers, line))

    def test_keys(self) -> None:
        with self.open('(document "a" (em "c"))') as doc:
            doc.go("/1/0/0")
            self.assertEqual(self.refused(doc.enter), "no paragraph")
            self.assertEqual(self.refused(doc.backspace), "no start")
            doc.go("/1/0/1")
            self.assertEqual(self.refused(doc.right), "no end")
            doc.go("/1/1")
            self.assertEqual(self.refused(lambda: doc.type("x")), "no text")

    def test_limits(self) -> None:
        with self.open(node("document", "a" * 600000, "a" * 600000).print()) as doc:
            self.assertEqual(self.refused(lambda: doc.join("/", 0)), "no too-long 1200000")
            self.assertEqual(self.refused(lambda: doc.assign("/0", "a" * 1048566)), "no long 1048578")
        with self.open(node("document", *["a"] * 65535).print()) as doc:
            self.assertEqual(self.refused(lambda: doc.insert("/", 0, node("tuple", "b"))), "no too-wide 65536")
        deep = text("a")
        for _ in range(398):
            deep = node("f", deep)
        with self.open(node("document", deep).print()) as doc:
            self.assertEqual(self.refused(lambda: doc.insert_node("/", 0, node("f"))), "no too-deep 401")
            deep = node("f", node("f", deep))
            self.assertEqual(self.refused(lambda: doc.assign("/0", deep)), "no tree limit depth 401")
        with self.open(node("document", *["a" * 999999] * 7, "a" * 999998).print()) as doc:
            self.assertEqual(self.refused(lambda: doc.insert("/", 0, node("tuple", "b"))), "no too-big 8000002")
        with self.open('(em "c")') as doc:
            self.assertEqual(self.refused(lambda: doc.save("x.tm")), "no form")

    def test_file_long(self) -> None:
        leaf = node("a" * 64)
        wide = node("f", *[leaf] * 63000)
        with self.open(node("document", wide, wide, wide, node("f")).print()) as doc:
            for start in range(0, 63000, 12600):
                doc.insert("/3", start, node("tuple", *[leaf] * 12600))
            self.assertEqual(self.refused(lambda: doc.save("x.scm")), "no file-long 16884027")
            self.assertFalse(os.path.exists("x.scm"))

    @unittest.skipUnless(hasattr(resource, "prlimit"), "needs a limit on another process")
    def test_memory(self) -> None:
        with self.open('(document "x")') as doc:
            doc.assign("/0", "x" * 300000)
            self.limit_memory(doc, 3000000)
            self.assertEqual(self.refused(lambda: self.fill(doc)), "no memory")
            self.assertEqual(doc.cursor(), Place((0,), 0))

    @unittest.skipUnless(hasattr(resource, "prlimit"), "needs a limit on another process")
    def test_memory_for_a_line(self) -> None:
        with self.open('(document "x")') as doc:
            self.limit_memory(doc, 100000)
            self.assertEqual(self.ended(lambda: self.fill(doc)), (8, "memory"))

    def limit_memory(self, doc: tmx.Document, more: int) -> None:
        """Lets the program take only so many bytes more."""
        pages = int(pathlib.Path(f"/proc/{doc.process.pid}/statm").read_text().split()[0])
        limit = pages * resource.getpagesize() + more
        resource.prlimit(doc.process.pid, resource.RLIMIT_AS, (limit, limit))

    def fill(self, doc: tmx.Document) -> None:
        for _ in range(50):
            doc.assign("/0", "x" * 300000)


REFUSED_LINES = [
    ("shw", "no unknown"), ("show 1", "no args 4"), ("page 4294967296", "no args 14"),
    ("page 00000000001", "no args 15"),
    ("page", "no args 4"), ("page ", "no args 5"), ("page x", "no args 5"), ("errors x", "no args 6"),
    ("attrs", "no args 5"), ("attrs x", "no args 6"), ("quit now", "no args 4"), ("remove /0 1", "no args 11"),
    ("split / 0 x", "no args 10"), ("assign-node /1 a;b", "no args 16"), ("save", "no args 4"),
    ("save a b", "no args 6"),
    ("type (f)", "no args 5"), ("assign 0 \"x\"", "no path 7"), ("go /1/", "no path 6"), ("assign /x (f", "no path 8"),
    ("go x", "no path 3"), ("assign /0 (em \"c\"", "no tree unclosed 17"), ("assign /0 (f a)", "no tree stray 13"),
    ("assign /0 \"\\n\"", "no tree bad-escape 12"), ("assign /0 ()", "no tree bad-label 11"),
    ("assign /0 \"<b c>\"", "no tree bad-text 13"), ("assign /0 \"x\" y", "no tree after 14"), ("at x", "no buffer"),
    ("undo", "no undo"), ("redo", "no redo"), ("undo-at 1", "no undo"), ("undo-at", "no args 7"),
    ("assign /5 \"x\"", "no path-end 0"), ("go /", "no path-end 0"),
    ("assign /1/0/2 \"x\"", "no path-end 2"), ("insert /0 0 (em)", "no not-string"),
    ("insert /1 0 \"x\"", "no not-node"),
    ("insert /1 0 (em)", "no not-node"), ("assign-node /0 em", "no not-node"),
    ("insert-node /0 0 \"x\"", "no not-node"),
    ("insert /0 9 \"x\"", "no bad-place 8"), ("remove /0 7 2", "no bad-place 8"), ("go /0/9", "no bad-place 8"),
    ("join / 1", "no bad-place 2"), ("split / 1 2", "no bad-place 1"), ("insert-node /0 2 (f \"x\")", "no bad-place 1"),
    ("go /1/2", "no bad-place 1"), ("join / 0", "no differ"), ("insert /0 3 \"x\"", "no cuts-symbol 3"),
    ("split / 0 2", "no cuts-symbol 2"), ("go /0/3", "no cuts-symbol 3"), ("backspace", "no start"),
    ("left", "no start"),
    ("where 9 0", "no cell 2 80"), ("attrs 9", "no cell 2 80"), ("page 0", "no page 1"), ("page 2", "no page 1"),
    ("page 4294967295", "no page 1"), ("save none/x.tm", "no store"),
]


class Statuses(InFolder):
    def opened(self, *names: str, program: str = PROGRAM, **sizes: int) -> Callable[[], tmx.Document]:
        """A call that opens these files."""
        return lambda: tmx.open(names[0], names[1:], program=program, timeout=LIMIT, **sizes)

    def test_words(self) -> None:
        self.write("d.scm", '(document "a")')
        usage = "usage: tmx [--width N] [--height N] FILE [STYLE]..."
        for call in (self.opened("d.scm", width=19), self.opened("d.scm", width=501), self.opened("d.scm", height=4),
                     self.opened("d.scm", "a/d.scm"), self.opened("a/"), self.opened(""),
                     self.opened(*[f"{i}.scm" for i in range(65)]), self.opened(os.fsdecode(b"\xff.scm"))):
            self.assertEqual(self.ended(call), (2, usage))

    def test_missing(self) -> None:
        self.write("d.scm", '(document "a")')
        self.assertEqual(self.ended(self.opened("no.tm")), (3, "missing no.tm"))
        self.assertEqual(self.ended(self.opened("d.scm", "no/é.tm")), (3, "missing no/é.tm"))
        self.assertEqual(self.ended(self.opened("a\n/b")), (3, "missing a\n/b"))

    def test_refused(self) -> None:
        self.write("t.tm", "<em|imp")
        self.write("long.scm", b" " * ((1 << 24) + 1))
        self.assertEqual(self.ended(self.opened("t.tm")), (4, "refused t.tm unclosed 7"))
        self.assertEqual(self.ended(self.opened("long.scm")), (4, "refused long.scm long"))
        with self.assertRaises(tmx.Ended) as caught:
            tmx.open("t.tm", program=PROGRAM)
        self.assertEqual(str(caught.exception), "tmx ended: status 4 Refused: refused t.tm unclosed 7")

    def test_store(self) -> None:
        os.mkdir("folder")
        self.assertEqual(self.ended(self.opened("folder")), (5, "store folder"))

    def test_input(self) -> None:
        self.write("d.scm", '(document "a")')
        program = self.wrapper('exec TMX "$@" < .')
        self.assertEqual(self.ended(self.opened("d.scm", program=program)), (6, "input"))

    @unittest.skipUnless(os.path.exists("/dev/full"), "needs a full device")
    def test_output(self) -> None:
        self.write("d.scm", '(document "a")')
        program = self.wrapper('exec TMX "$@" > /dev/full')
        self.assertEqual(self.ended(self.opened("d.scm", program=program)), (7, None))

    def test_memory(self) -> None:
        self.write("long.tm", b"a" * 15000000)
        program = self.wrapper('ulimit -v 20000; exec TMX "$@"')
        self.assertEqual(self.ended(self.opened("long.tm", program=program)), (8, "memory"))

    def test_script_long(self) -> None:
        with self.open('(document "a")') as doc:
            self.assertEqual(doc.sent, len(b"cursor\n"))
            for _ in range(15):
                doc.ask(b"x" * 1048575)
            self.assertEqual(doc.remaining, (1 << 24) - 15 * 1048576 - 7)
            doc.ask(b"x" * (doc.remaining - 8))
            self.assertEqual(doc.remaining, 7)
            self.assertEqual(doc.cursor(), Place((0,), 0))
            self.assertEqual(doc.remaining, 0)
            self.assertEqual(self.ended(doc.tree), (9, "script-long"))
            self.assertEqual(self.ended(doc.tree), (9, "script-long"))

    def test_script_long_in_a_page(self) -> None:
        for rest in (0, 7, 20, 30, 40, 180):
            with self.open('(document "memory")') as doc:
                for _ in range(15):
                    doc.ask(b"x" * 1048575)
                doc.ask(b"x" * (doc.remaining - 1 - rest))
                self.assertEqual(self.ended(lambda: doc.page(1)), (9, "script-long"))

    def test_killed(self) -> None:
        with self.open('(document "a")') as doc:
            doc.process.kill()
            doc.process.wait()
            self.assertEqual(self.ended(doc.cursor), (-signal.SIGKILL, None))
            self.assertEqual(self.ended(doc.show), (-signal.SIGKILL, None))
        with self.open('(document "a")') as doc:
            os.kill(doc.process.pid, signal.SIGSTOP)
            killer = threading.Timer(0.2, doc.process.kill)
            killer.start()
            self.assertEqual(self.ended(lambda: doc.type("x" * 900000)), (-signal.SIGKILL, None))
            killer.join()

    def test_no_program(self) -> None:
        with self.assertRaises(FileNotFoundError):
            tmx.open("d.scm", program="./none")

    def test_ok(self) -> None:
        with self.open('(document "a")') as doc:
            pass
        self.assertEqual(doc.process.returncode, 0)
        doc.close()
        self.assertEqual(self.ended(doc.cursor), (0, None))


class Names(InFolder):
    def test_odd_names(self) -> None:
        for name in ("a b.scm", "-x.scm", "--width=40.scm", "--help.scm", "gen:1:3.scm", "gen:.scm", "é中.scm",
                     'q"u\'o$te`.scm',
                     "a\nb.scm", "*.scm", "a;b|c&d.scm", ".scm.scm", "x/y z/w.scm", "\\.scm", "$(touch p).scm"):
            with self.open('(document "here")', name) as doc:
                self.assertEqual(doc.show(), [tmx.Page(1, ["here"])])
        self.assertFalse(os.path.exists("p"))
        with self.open('(document "here")', ".scm") as doc:
            self.assertEqual(doc.tree().print(), b'(document "here")')
        pathlib.Path("p.scm").write_text('(document "a")')
        with tmx.open(pathlib.Path("p.scm"), [b"x/y z/w.scm"], program=pathlib.Path(PROGRAM), timeout=LIMIT) as doc:
            doc.at("w")

    def test_buffer_names(self) -> None:
        names: List[Tuple[tmx.FileName, str]] = [
            ("d.scm", "d"), ("a/b.c.scm", "b.c"), (".scm", ".scm"), ("a.b/c", "c"), (b"x/.a.b", ".a"),
            (pathlib.Path("/a/b.tm"), "b")]
        for file, name in names:
            self.assertEqual(tmx.buffer_name(file), name)
            if isinstance(file, str):
                with self.open('(document "a")' if file.endswith(".scm") else "a", file) as doc:
                    doc.at(name)

    def test_names_to_save(self) -> None:
        with self.open('(document "a")') as doc:
            for name in ("-x.scm", "a;b.scm", "$HOME.scm", '"q".scm', "gen:1:3", "x" * 250 + ".scm"):
                self.assertGreater(doc.save(name), 0)
                self.assertTrue(os.path.isfile(name))
            self.assertEqual(self.refused(lambda: doc.save("y" * 256)), "no args 260")

    def test_styles_are_a_list(self) -> None:
        with self.assertRaises(TypeError):
            tmx.open(self.write("d.scm", "(document)"), "s.scm", program=PROGRAM)

    def test_many_styles(self) -> None:
        styles = [self.write(f"s{i}.scm", f'(document (assign "v{i}" "{i}"))') for i in range(15)]
        names = " ".join(f'"s{i}"' for i in range(15))
        self.write("d.scm", f'(document (style (tuple {names})) (body (document (value "v14"))))')
        with tmx.open("d.scm", styles, program=PROGRAM, timeout=LIMIT) as doc:
            self.assertEqual(doc.show()[0].rows, ["14"])
            self.assertEqual(doc.errors(), [])


class Replies(InFolder):
    """No reply is taken for another one."""

    def test_rows_like_replies(self) -> None:
        likes = ["ok", "no page 3", "no path 3", "/0/0", "page 1", "page 2", "page 3", "pages 1 rows 1",
                 "errors 0", "memory", "script-long", "input", "no undo", "no memory"]
        for height in (5, 6, 24):
            source = node("document", *(likes + ["/0/0"] + ["no page 4"] * 30 + likes))
            with self.open(source.print(), height=height) as doc:
                self.check_pages(doc, [part.text.decode() for part in source.children if part.text is not None], height)

    def test_pages_full_of_one_line(self) -> None:
        for line in ("no page 2", "/0/0", "page 2"):
            for count in (9, 10, 6, 7):
                with self.open(node("document", *[line] * count).print(), height=5) as doc:
                    self.check_pages(doc, [line] * count, 5)

    def test_pages_that_end_like_the_mark(self) -> None:
        for first in range(0, 5):
            lines = ["x"] * first + ["/0/0"] + ["no page 1"] * (4 - first)
            with self.open(node("document", *lines).print(), height=5) as doc:
                self.check_pages(doc, lines, 5)

    def check_pages(self, doc: tmx.Document, lines: List[str], height: int) -> None:
        wanted = [lines[start:start + height] for start in range(0, len(lines), height)]
        pages = [tmx.Page(number, page) for number, page in enumerate(wanted, 1)]
        self.assertEqual(doc.show(), pages)
        self.assertEqual([doc.page(page.number) for page in pages], pages)
        self.assertEqual(doc.cursor(), Place((0,), 0))
        self.assertEqual(self.refused(lambda: doc.page(len(pages) + 1)), f"no page {len(pages)}")
        self.assertEqual(doc.ask(b"undo"), [b"no undo"])

    def test_heads_in_rows(self) -> None:
        with self.open('(document "a" "page 2" (concat "b" (new-page) "c") "page 2")') as doc:
            self.assertEqual(doc.show(), [tmx.Page(1, ["a", "page 2", "b"]), tmx.Page(2, ["c", "page 2"])])
        with self.open('(document "a" (new-page) "page 2" "x")') as doc:
            self.assertEqual(doc.show(), [tmx.Page(1, ["a", ""]), tmx.Page(2, ["page 2", "x"])])

    def test_line_separators_in_rows(self) -> None:
        with self.open('(document "a<#2028>b<#2029>c<#A0>d")') as doc:
            self.assertEqual(doc.show()[0].rows, ["a\u2028b\u2029c\xa0d"])
            self.assertEqual(doc.page(1).rows, ["a\u2028b\u2029c\xa0d"])

    def test_attributes_like_replies(self) -> None:
        with self.open('(document (with "color" "/0" "font-series" "no" "a") (error "no" "/0"))') as doc:
            self.assertEqual(doc.attrs(0), [tmx.Run(0, 1, "no", "right", "/0")])
            self.assertEqual(doc.errors(), [tmx.ErrorEntry((1,), "no", "/0")])


class Large(InFolder):
    def test_reply_of_ten_megabytes(self) -> None:
        quotes = node("document", *['"' * 999000] * 6)
        with self.open(quotes.print()) as doc:
            self.assertGreater(len(doc.ask(b"tree")[0]), 10_000_000)
            self.assertEqual(doc.tree(), quotes)
            self.assertEqual(doc.cursor(), Place((0,), 0))

    def test_many_paragraphs(self) -> None:
        document = node("document", *[f"paragraph {i} with words to read" for i in range(20000)])
        with self.open(document.print()) as doc:
            pages = doc.show()
            self.assertEqual(len(pages), 834)
            self.assertEqual(pages[800].rows[0], f"paragraph {800 * 24} with words to read")
            self.assertEqual(doc.page(801), pages[800])
            self.assertEqual(doc.tree(), document)
            doc.go("/19999/9")
            doc.type("!")
            self.assertEqual(doc.where(19999, 10), Place((19999,), 10))

    def test_ten_thousand_keys(self) -> None:
        document = node("document", *[f"paragraph {i} with words to read" for i in range(1000)])
        with self.open(document.print()) as doc:
            doc.go("/500/9")
            before = _processor_time(resource.RUSAGE_SELF)
            started = time.monotonic()
            for _ in range(10000):
                doc.type("x")
            passed = time.monotonic() - started
            own = _processor_time(resource.RUSAGE_SELF) - before
            before = _processor_time(resource.RUSAGE_CHILDREN)
            self.assertEqual(doc.tree().at("/500"), text("paragraph" + "x" * 10000 + " 500 with words to read"))
        program = _processor_time(resource.RUSAGE_CHILDREN) - before
        print(f"10000 calls of type: {passed:.2f} s; processor time: {own:.2f} s here, {program:.2f} s in the program")
        self.assertLess(own + program, 3)


def _processor_time(who: int) -> float:
    used = resource.getrusage(who)
    return used.ru_utime + used.ru_stime


class Limits(InFolder):
    def test_time_limit(self) -> None:
        with self.open('(document "a")') as doc:
            doc.timeout = 0.2
            os.kill(doc.process.pid, signal.SIGSTOP)
            started = time.monotonic()
            with self.assertRaises(tmx.TimedOut):
                doc.cursor()
            self.assertLess(time.monotonic() - started, 60)
            self.assertEqual(self.ended(doc.cursor), (-signal.SIGKILL, None))

    def test_time_limit_while_sending(self) -> None:
        with self.open('(document "a")') as doc:
            doc.timeout = 0.2
            os.kill(doc.process.pid, signal.SIGSTOP)
            with self.assertRaises(tmx.TimedOut):
                doc.type("x" * 900000)
            self.assertIsNotNone(doc.process.returncode)

    def test_time_limit_at_the_end(self) -> None:
        doc = self.open('(document "a")', timeout=0.2 if not _crowded() else 5)
        os.kill(doc.process.pid, signal.SIGSTOP)
        with self.assertRaises(tmx.TimedOut):
            doc.close()
        self.assertIsNotNone(doc.process.returncode)

    def test_interrupt(self) -> None:
        """A reply that isn't read to its end is never taken for the next one."""
        with self.open('(document "a")') as doc:
            os.kill(doc.process.pid, signal.SIGSTOP)
            before = signal.signal(signal.SIGALRM, _interrupt)
            signal.setitimer(signal.ITIMER_REAL, 0.2)
            try:
                with self.assertRaises(KeyboardInterrupt):
                    doc.cursor()
            finally:
                signal.signal(signal.SIGALRM, before)
            self.assertEqual(self.ended(doc.cursor), (-signal.SIGKILL, None))


def _interrupt(*_: object) -> None:
    raise KeyboardInterrupt


def _crowded() -> bool:
    return os.getloadavg()[0] > (os.cpu_count() or 1)


def _rows(kinds: Tuple[str, ...], words: Optional[str] = None) -> Iterator[rows.Row]:
    for path in sorted(ROWS.glob("*.rows")):
        if path.name != "wrong.rows":
            for row in rows.read_rows(path):
                if row.kind in kinds and words in (None, row.words):
                    yield row


class Sessions(InFolder):
    """The sessions of the row files, line by line through the module.

    The replies are compared with what the program writes where the script is its input. Whether that is right is
    tested where the rows stand.
    """

    @unittest.skipUnless(ROWS.is_dir(), f"there is no {ROWS}")
    def test_rows(self) -> None:
        count = left_out = 0
        for path in sorted(ROWS.glob("*.rows")):
            for row in rows.read_rows(path) if path.name != "wrong.rows" else ():
                if row.kind != "run":
                    continue
                if not _can_be_asked(row):
                    left_out += 1
                    continue
                count += 1
                with self.subTest(f"{path.name}:{row.number}"):
                    self.check_row(row)
        print(f"{count} sessions of row files; {left_out} left out, whose script no client sends")
        self.assertGreater(count, 50 * left_out)

    def check_row(self, row: rows.Row) -> None:
        words = [PROGRAM] + ["" if word == '""' else word for word in row.words.split()]
        replies = []
        for session in (_piped, _session):
            with tempfile.TemporaryDirectory() as folder:
                os.chdir(folder)
                for name, lines in row.files:
                    self.write(name, lines.text())
                replies.append(session(words, row.asked.text()))
                os.chdir(self._folder.name)
        if replies[0] != replies[1]:
            self.fail(f"{replies[0][:5000]!r} is not {replies[1][:5000]!r}")


def _piped(words: List[str], script: bytes) -> bytes:
    """What the program writes where the script is its input, and its status."""
    done = subprocess.run(words, input=script, stdout=subprocess.PIPE, timeout=LIMIT, check=False)
    return done.stdout + (b"status %d\n" % done.returncode if done.returncode else b"")


def _can_be_asked(row: rows.Row) -> bool:
    """Whether the script is one that the module can send: not past its limit, and of lines that have one end."""
    script = row.asked.text()
    return len(script) < tmx.SCRIPT_LIMIT - 100000 and b"\r\r" not in script and "gen:" not in row.words


def _session(words: List[str], script: bytes) -> bytes:
    """The replies to a script, and the status."""
    replies: List[bytes] = []
    try:
        doc = tmx.Document(words, _height(words), LIMIT)
        with doc:
            for line in script.split(b"\n"):
                line = line[:-1] if line.endswith(b"\r") else line
                if line:
                    replies += doc.ask(line)
                if line == b"quit":
                    break
    except tmx.Ended as end:
        replies += [os.fsencode(end.line)] if end.line is not None else []
        replies.append(b"status %d" % end.status)
    return b"".join(reply + b"\n" for reply in replies)


def _height(words: List[str]) -> int:
    """The height that the words give, or the usual one."""
    for word, value in zip(words, words[1:] + [""]):
        value = value if word == "--height" else word[len("--height="):] if word.startswith("--height=") else ""
        if value.isdigit():
            return min(500, int(value))
    return 24


class CommandLine(InFolder):
    def run_module(self, *arguments: str) -> Tuple[int, str, str]:
        """The status, output and errors of `python3 -m tmx`."""
        done = subprocess.run([sys.executable, "-m", "tmx", *arguments], stdout=subprocess.PIPE, stderr=subprocess.PIPE,
                              env=dict(os.environ, PYTHONPATH=str(HERE), TMX=PROGRAM), timeout=LIMIT, check=False)
        return done.returncode, done.stdout.decode(), done.stderr.decode()

    def test_text(self) -> None:
        self.write("d.scm", node("document", "a “b” page", node("concat", "c", node("new-page"), ""), "page 2").print())
        self.assertEqual(self.run_module("d.scm", "--text")[:2], (0, "a “b” page\nc\npage 2\n"))
        self.write("s.scm", '(document (assign "hi" (macro "x" (concat "Hi " (arg "x")))))')
        self.write("e.scm", '(document (style "s") (body (document (hi "<alpha> longer than twenty"))))')
        self.assertEqual(self.run_module("e.scm", "--text", "--width", "20", "s.scm")[:2],
                         (0, "Hi α longer than\ntwenty\n"))

    def test_html(self) -> None:
        self.write("d.scm", '(document (TeXmacs "2.1") (body (document (concat "a " (em "b<less>") (strong "c")) '
                            '(with "color" "dark green" "<#4E2D>x") (with "color" "red;x:y" "y") '
                            '(itemize (document (concat (item) "p") (concat (item) "q"))))))')
        status, output, _ = self.run_module("d.scm", "--html")
        self.assertEqual(status, 0)
        for piece in ("<p>a <i>b&lt;</i><b>c</b></p>", '<p><span style="color: darkgreen">中x</span></p>',
                      "<p>y</p>", "<p>  - p\n  - q</p>", "<title>d.scm</title>"):
            self.assertIn(piece, output)

    def test_columns(self) -> None:
        """Clusters of several characters, and those of which the standard library knows another width."""
        for characters in ("e\u0301x", "👨\u200d👩\u200d👧x", "🇸🇪🇫🇷x", "👍🏽x", "\u1100\u1161x", "\u0301x",
                           "क\u093fx", "a\u200bx"):
            source = node("document", node("concat", characters, node("em", "y"), "z"))
            self.write("d.scm", source.print())
            _, output, _ = self.run_module("d.scm", "--html")
            self.assertIn("y", output)
            self.assertEqual(output.count("<i>"), output.count("<i>y</i>"), output)

    def test_macros(self) -> None:
        self.write("d.scm", '(document (em "a") (g (em "b") (h)) (value "x"))')
        self.assertEqual(self.run_module("d.scm", "--macros")[:2],
                         (0, "document 1\nem 2\ng 1 undefined\nh 1 undefined\nvalue 1\n"))

    def test_grep(self) -> None:
        self.write("d.scm", '(document "<alpha>a.a" (em "al" "a<foo>"))')
        self.assertEqual(self.run_module("d.scm", "--grep", "a")[:2],
                         (0, "/0/7: αa.a\n/0/9: αa.a\n/1/0/0: al\n/1/1/0: a<foo>\n"))
        self.assertEqual(self.run_module("--grep", "αa.", "d.scm")[:2], (0, "/0/0: αa.a\n"))
        self.assertEqual(self.run_module("--grep", "oo", "d.scm")[:2], (0, "/1/1/1: a<foo>\n"))
        self.assertEqual(self.run_module("--grep", "zz", "d.scm")[:2], (1, ""))
        self.assertEqual(self.run_module("--grep", "", "d.scm")[0], 2)

    def test_from_utf8(self) -> None:
        self.write("p.txt", "\ufeffGrüße, <α>\r\n zwei\n\n \n\tdrei “x” €\n".encode())
        wanted = node("document", "Grüße, <α> zwei", "drei “x” €")
        status, output, _ = self.run_module("p.txt", "--from-utf8", "--output", "o.scm")
        self.assertEqual((status, output), (0, ""))
        self.assertEqual(pathlib.Path("o.scm").read_bytes(), wanted.print() + b"\n")
        self.assertEqual(self.run_module("p.txt", "--from-utf8", "--output", "an odd name.tm")[0], 0)
        with tmx.open("an odd name.tm", program=PROGRAM, timeout=LIMIT) as doc:
            self.assertEqual(doc.tree(), wanted)
        done = subprocess.run([sys.executable, "-m", "tmx", "p.txt", "--from-utf8"], stdout=subprocess.PIPE,
                              env=dict(os.environ, PYTHONPATH=str(HERE)), timeout=LIMIT, check=True)
        self.assertEqual(Tree.parse(done.stdout.rstrip(b"\n")), wanted)
        for wrong in (b"\xff", b"a\x0cb"):
            self.write("w.txt", wrong)
            self.assertEqual(self.run_module("w.txt", "--from-utf8")[0], 1)

    def test_plain_documents(self) -> None:
        for plain, tree in [("", node("document", "")), ("a\nb", node("document", "a b")),
                            ("a\n\n\nb\n", node("document", "a", "b")), ("a\xa0b", node("document", "a\xa0b"))]:
            self.assertEqual(tmx.plain_document(plain), tree)

    def test_faults(self) -> None:
        self.write("t.tm", "<em|imp")
        self.assertEqual(self.run_module("no.tm", "--text")[::2],
                         (3, "tmx: tmx ended: status 3 Missing: missing no.tm\n"))
        self.assertEqual(self.run_module("t.tm", "--text")[0], 4)
        self.assertEqual(self.run_module("t.tm")[0], 2)
        self.assertEqual(self.run_module("t.tm", "--text", "--html")[0], 2)
        self.assertEqual(self.run_module("t.tm", "--text", "--output", "x.tm")[0], 2)
        self.assertEqual(self.run_module("no.txt", "--from-utf8")[0], 1)
        self.assertEqual(self.run_module("t.tm", "--text", "--program", "./none")[0], 1)


if __name__ == "__main__":
    unittest.main()
