#!/usr/bin/env python3
"""The workbench for Python, over the shared object of its library for C, and a program that prints what it says of a text.

usage: workbench.py tree TEXT HOST EXT..          a node or a leaf a line, with the place of each leaf
       workbench.py print TEXT HOST EXT..         the line that the command `tree` prints
       workbench.py run NAME TEXT HOST EXT..      the line that the command `run` prints of the attribute NAME
       workbench.py edit TEXT EDITS HOST EXT..    the lines that the command `edit` prints

The shared object is $WORKBENCH_LIBRARY, or libworkbench.so where the loader finds it. Status and lines are those of the program.

    with Workbench() as workbench:
        language = workbench.host(host_bytes).extend(extension_bytes).compose()
        text = language.open(b"1 + 2")
        text.edit(4, 5, b"3")
        print(text.printed(), text.value("value"))

A workbench owns its hosts, languages and texts: they end with it, or by `close`. Texts and notes are bytes, and places count bytes from 0. What is
refused raises `Refused`, with the number of `include/workbench.h` and the note. One call at a time for a workbench.
"""
import ctypes
import os
import re
import sys
from collections import namedtuple
from ctypes import POINTER, Structure, byref, c_bool, c_char_p, c_size_t, c_uint8, c_uint32, c_uint64, c_void_p

TREE, NO_TOKEN, UNEXPECTED = range(3)
SPEC_REFUSED, NOT_CERTIFIED, TEXT_STOPPED, OPERATION_FAULT, MORE_STEPS = range(3, 8)
NO_MEMORY, TEXT_TOO_LONG, TOO_LONG_TO_PRINT = range(11, 14)
DUPLICATE_EXTENSION, WRONG_HOST, UNKNOWN_ATTRIBUTE, EDIT_REFUSED = 15, 16, 17, 21
WRONG_HANDLE, FULL, NOT_KEPT, OUT_OF_RANGE = range(32, 36)
# What has a note. After others an earlier one is there.
NOTED = {SPEC_REFUSED, NOT_CERTIFIED, TEXT_STOPPED, OPERATION_FAULT, MORE_STEPS, DUPLICATE_EXTENSION, WRONG_HOST, UNKNOWN_ATTRIBUTE}
# What has a code.
CODED = {SPEC_REFUSED, NOT_CERTIFIED}
NOWHERE = c_size_t(-1).value
# What the program prints where there is none.
WITHOUT_NOTE = {TEXT_TOO_LONG: b"text too long\n", TOO_LONG_TO_PRINT: b"value too long to print\n"}
STEPS = 10000000  # the most that the program takes

Leaf = namedtuple("Leaf", "terminal begin lexeme end")
Node = namedtuple("Node", "number production children")


class Handle(Structure):
    _fields_ = [("place", c_uint32), ("generation", c_uint32)]


class Answer(Structure):
    _fields_ = [("kind", c_uint32), *((name, c_size_t) for name in ("tree", "at", "terminal", "bytes", "nodes", "leaves"))]


class NodeOut(Structure):
    _fields_ = [("production", c_size_t), ("children", c_size_t)]


class ChildOut(Structure):
    _fields_ = [("kind", c_uint32), ("node", c_size_t)]


class PlaceOut(Structure):
    _fields_ = [(name, c_size_t) for name in ("terminal", "begin", "lexeme", "end")]


class Edited(Structure):
    _fields_ = [(name, c_size_t) for name in ("start", "to", "scanned", "built", "kept", "known")]


class ReasonOut(Structure):
    _fields_ = [("letter", c_uint8), ("digit", c_uint8), ("offset", c_size_t)]


BYTES = [c_char_p, c_size_t]
CALLS = {
    "wb_host": [*BYTES, *BYTES, POINTER(Handle)],
    "wb_extend": [Handle, *BYTES, *BYTES],
    "wb_compose": [Handle, POINTER(Handle)],
    "wb_parse": [Handle, *BYTES, POINTER(Handle)],
    "wb_open": [Handle, *BYTES, POINTER(Handle)],
    "wb_edit": [Handle, c_size_t, c_size_t, *BYTES, POINTER(Edited)],
    "wb_release": [Handle],
    "wb_answer": [Handle, POINTER(Answer)],
    "wb_node": [Handle, c_size_t, POINTER(NodeOut)],
    "wb_child": [Handle, c_size_t, c_size_t, POINTER(ChildOut)],
    "wb_place": [Handle, c_size_t, POINTER(PlaceOut)],
    "wb_production_name": [Handle, c_size_t],
    "wb_terminal_name": [Handle, c_size_t],
    "wb_leaf_text": [Handle, c_size_t, c_size_t],
    "wb_print": [Handle, c_size_t],
    "wb_value": [Handle, *BYTES, c_uint64],
}
OTHERS = {
    "wb_reason": ([POINTER(ReasonOut)], None),
    "wb_note_length": ([], c_size_t),
    "wb_note_copy": ([c_size_t, c_char_p, c_size_t], c_size_t),
    "wb_close_host": ([Handle], c_bool),
    "wb_close_language": ([Handle], c_bool),
    "wb_close_text": ([Handle], c_bool),
}


def library(path=None):
    """The shared object with the types of its calls."""
    found = ctypes.CDLL(path or os.environ.get("WORKBENCH_LIBRARY") or "libworkbench.so")
    found.wb_new.argtypes, found.wb_new.restype = [POINTER(c_void_p)], c_uint32
    found.wb_free.argtypes, found.wb_free.restype = [c_void_p], None
    for name, (words, answer) in {**{name: (words, c_uint32) for name, words in CALLS.items()}, **OTHERS}.items():
        call = getattr(found, name)
        call.argtypes, call.restype = [POINTER(c_void_p), *words], answer
    return found


class Refused(Exception):
    """Why a call is refused: the number, and the note, which is a line, or empty. Of contents also the code, as "E5", and the place that is told
    with it, or None."""

    def __init__(self, status, note, code=None, offset=None):
        super().__init__(status, note)
        self.status, self.note, self.code, self.offset = status, note, code, offset

    def __str__(self):
        return self.note.decode("latin-1").rstrip("\n") or f"status {self.status}"


class Workbench:
    def __init__(self, path=None):
        self.library, self.at = library(path), c_void_p()
        if self.library.wb_new(byref(self.at)):
            raise MemoryError

    def __enter__(self):
        return self

    def __exit__(self, *_):
        self.close()

    def close(self):
        """Lets go of all. Nothing that came from this workbench may be used afterwards."""
        if self.at:
            self.library.wb_free(self.at)
            self.at = None

    def call(self, name, *words):
        """What a call answers; raises where it is refused."""
        if not self.at:
            raise ValueError("the workbench is closed")
        answer = getattr(self.library, name)(byref(self.at), *words)
        if name in CALLS and answer:
            raise Refused(answer, self.note() if answer in NOTED else b"", *(self.reason() if answer in CODED else ()))
        return answer

    def reason(self):
        """The code of the last refusal of contents, and its place; each is None where there is none."""
        found = ReasonOut()
        self.call("wb_reason", byref(found))
        code = chr(found.letter) + chr(found.digit) if found.letter else None
        return code, None if found.offset == NOWHERE else found.offset

    def note(self):
        length = self.call("wb_note_length")
        buffer = ctypes.create_string_buffer(length + 1)
        count = self.call("wb_note_copy", 0, buffer, length)
        return buffer.raw[:count]

    def noted(self, name, *words):
        """The note that a call makes."""
        self.call(name, *words)
        return self.note()

    def host(self, contents, name=b"host"):
        """The host of these contents; the name is shown where it is refused."""
        made = Handle()
        self.call("wb_host", name, len(name), contents, len(contents), byref(made))
        return Host(self, made)


class Owned:
    """What a workbench owns by a handle."""

    sort = None

    def __init__(self, workbench, handle):
        self.workbench, self.handle = workbench, handle

    def close(self):
        """Lets go of it, and tells whether it was there."""
        return self.workbench.call(f"wb_close_{self.sort}", self.handle)


class Host(Owned):
    sort = "host"

    def extend(self, contents, name=b"extension"):
        """Adds an extension after those before it."""
        self.workbench.call("wb_extend", self.handle, name, len(name), contents, len(contents))
        return self

    def compose(self):
        """The language of the host with its extensions. The host is let go of."""
        made = Handle()
        self.workbench.call("wb_compose", self.handle, byref(made))
        return Language(self.workbench, made)


class Language(Owned):
    sort = "language"

    def __init__(self, workbench, handle):
        super().__init__(workbench, handle)
        self.names = {}

    def name_of(self, sort, number):
        if (sort, number) not in self.names:
            self.names[sort, number] = self.workbench.noted(f"wb_{sort}_name", self.handle, number)
        return self.names[sort, number]

    def production(self, number):
        return self.name_of("production", number)

    def terminal(self, number):
        return self.name_of("terminal", number)

    def text_by(self, call, text):
        made = Handle()
        self.workbench.call(call, self.handle, text, len(text), byref(made))
        return Text(self.workbench, made, self)

    def parse(self, text):
        """A text alone, which has a tree and no places."""
        return self.text_by("wb_parse", text)

    def open(self, text):
        """A text that is kept to be edited."""
        return self.text_by("wb_open", text)


class Text(Owned):
    sort = "text"

    def __init__(self, workbench, handle, language):
        super().__init__(workbench, handle)
        self.language = language

    def filled(self, call, out, *words):
        self.workbench.call(call, self.handle, *words, byref(out))
        return out

    def answer(self):
        return self.filled("wb_answer", Answer())

    def node(self, number):
        found = self.filled("wb_node", NodeOut(), number)
        return Node(number, found.production, found.children)

    def child(self, number, place):
        """The number of the node that the child at a place of a node is, or None where it is a leaf."""
        found = self.filled("wb_child", ChildOut(), number, place)
        return None if found.kind else found.node

    def leaf(self, number, place):
        """The text of the leaf that is the child at a place of a node."""
        return self.workbench.noted("wb_leaf_text", self.handle, number, place)

    def place(self, leaf):
        found = self.filled("wb_place", PlaceOut(), leaf)
        return Leaf(found.terminal, found.begin, found.lexeme, found.end)

    def edit(self, start, end, new):
        """Puts bytes in the place of those from `start` to before `end`, and tells what it took."""
        made = Edited()
        self.workbench.call("wb_edit", self.handle, start, end, new, len(new), byref(made))
        return made

    def release(self):
        """Drops the trees of earlier texts. Nodes have other numbers then."""
        self.workbench.call("wb_release", self.handle)

    def printed(self, number=None):
        """The tree at a node, or at the root, as the program prints it."""
        return self.workbench.noted("wb_print", self.handle, self.answer().tree if number is None else number)

    def value(self, name, steps=STEPS):
        """The line of an attribute's value at the root."""
        name = name.encode() if isinstance(name, str) else name
        return self.workbench.noted("wb_value", self.handle, name, len(name), steps)

    def walk(self):
        """Each node and each leaf of the tree, with its depth, parents first and from left to right."""
        leaf, todo = 0, [(self.answer().tree, 0)]
        while todo:
            number, depth = todo.pop()
            if number is None:
                yield self.place(leaf), depth
                leaf += 1
                continue
            node = self.node(number)
            yield node, depth
            todo.extend((self.child(number, place), depth + 1) for place in reversed(range(node.children)))

    def line(self):
        """The line that the program prints of the text: its tree, or where and why it stops."""
        answer = self.answer()
        if answer.kind == TREE:
            return self.printed(answer.tree) + b"\n"
        if answer.kind == NO_TOKEN:
            return b"stopped at %d no token\n" % answer.at
        try:
            return b"stopped at %d unexpected %s\n" % (answer.at, self.language.terminal(answer.terminal))
        except Refused as it:
            if it.status != OUT_OF_RANGE:
                raise
            return b"stopped at %d unexpected end\n" % answer.at


ESCAPES = {ord('"'): b'\\"', ord("\\"): b"\\\\", ord("\n"): b"\\n"}


def string_of(text):
    """Bytes as a string of the program."""
    return b'"' + b"".join(ESCAPES.get(it) or (bytes([it]) if 32 <= it <= 126 else b"\\x%02x" % it) for it in text) + b'"'


def tree_lines(text, contents):
    for it, depth in text.walk():
        if isinstance(it, Node):
            yield b"  " * depth + text.language.production(it.production) + b"\n"
        else:
            shown = text.language.terminal(it.terminal), it.begin, it.end, string_of(contents[it.lexeme : it.end])
            yield b"  " * depth + b"%s %d..%d %s\n" % shown


EDIT = re.compile(rb'(\d+) (\d+) "((?:[^"\\\n]|\\(?:["\\ntr]|x[0-9a-fA-F]{2}))*)"\n')
SIGNS = {b"n": b"\n", b"t": b"\t", b"r": b"\r"}


def bytes_of(string):
    """The bytes of a string's inside."""
    return re.sub(rb"\\(x..|.)", lambda it: bytes.fromhex(it[1][1:].decode()) if len(it[1]) == 3 else SIGNS.get(it[1], it[1]), string)


def edit_lines(text, name, edits):
    """The line of a text, and that after each edit of a list."""
    yield text.line()
    for number, line in enumerate(re.findall(rb"[^\n]*\n|[^\n]+", edits), 1):
        found = EDIT.fullmatch(line)
        if not found:
            raise Refused(EDIT_REFUSED, b"line %d of %s is no edit\n" % (number, name))
        try:
            text.edit(int(found[1]), int(found[2]), bytes_of(found[3]))
        except Refused as it:
            raise Refused(it.status, b"refused %s U2 line %d\n" % (name, number) if it.status == EDIT_REFUSED else it.note) from it
        yield text.line()


def contents(name):
    with open(name, "rb") as it:
        return it.read()


def language_of(workbench, names):
    host = workbench.host(contents(names[0]), os.fsencode(names[0]))
    for name in names[1:]:
        host.extend(contents(name), os.fsencode(name))
    return host.compose()


def report(workbench, verb, words):
    """The lines of a command, and its status."""
    if verb == "run":
        return [language_of(workbench, words[2:]).parse(contents(words[1])).value(words[0])], 0
    if verb == "print":
        text = language_of(workbench, words[1:]).parse(contents(words[0]))
        return [text.line()], 0 if text.answer().kind == TREE else TEXT_STOPPED
    if verb == "edit":
        return edit_lines(language_of(workbench, words[2:]).open(contents(words[0])), os.fsencode(words[1]), contents(words[1])), 0
    whole = contents(words[0])
    text = language_of(workbench, words[1:]).open(whole)
    return ([text.line()], TEXT_STOPPED) if text.answer().kind != TREE else (tree_lines(text, whole), 0)


def main():
    least = {"tree": 2, "print": 2, "run": 3, "edit": 3}
    if len(sys.argv) < 2 or len(sys.argv) - 2 < least.get(sys.argv[1], sys.maxsize):
        print(__doc__.split("\n\n")[1], file=sys.stderr)
        return 2
    with Workbench() as workbench:
        try:
            lines, status = report(workbench, sys.argv[1], sys.argv[2:])
            for line in lines:
                sys.stdout.buffer.write(line)
            return status
        except Refused as it:
            sys.stdout.buffer.write(it.note or WITHOUT_NOTE.get(it.status, b""))
            return it.status
        except OSError as it:
            print(it, file=sys.stderr)
            return 8


if __name__ == "__main__":
    sys.exit(main())
