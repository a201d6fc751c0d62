"""Pages from Closure Templates and data, by the library libsoyc.so, in this process.

    from soyc import Templates
    shop = Templates({"list.soy": source, "layout.soy": layout}, bundle=hebrew)
    for piece in shop.render("shop.list.main", {"title": "..."}):
        connection.write(piece)

`Templates` compiles its files once, and then pages of them are made piece by piece; `run` is the program itself, any
command of it, over files in memory. `make -C dist libsoyc.so` makes the library, which takes a C compiler and a second
or two; it is looked for in dist/out of this repository, or where the environment's SOYC_LIBRARY says. Nothing else is
needed.

Threads: everything may be used by several threads, and another thread's Python code runs during a call. Of one
`Templates` and its pages one call at a time is made, by a lock; threads that shall make pages at the same time have one
each.
"""

import ctypes
import json
import os
import re
import threading
from typing import Any, Iterator, Mapping, NamedTuple, Optional, Sequence, Union

DONE, MEMORY, USAGE, READ, REFUSED, TOO_DEEP, MALFORMED, EMPTY, FULL = 0, 1, 2, 3, 5, 6, 7, 8, 9

Text = Union[str, bytes]


class SoycError(Exception):
    """A command that wasn't done. `status` is its status, and `line` what the program says about it."""

    def __init__(self, status: int, line: str):
        super().__init__(line or _MEANINGS.get(status, f"status {status}"))
        self.status = status
        self.line = line


class OutOfMemory(SoycError):
    """Memory ran out."""


class UsageError(SoycError):
    """The words are no command; or there are no files, or more than 64."""


class MissingFile(SoycError):
    """A file that the words name isn't among the files: `subject` is its name."""

    def __init__(self, status: int, line: str):
        super().__init__(status, line)
        self.subject = line.removesuffix(": read fault")


class Refused(SoycError):
    """A template, the translations or the data have a fault, or there is no such template, a script's line is none, or
    a page is too long to be shown.

    `code` and `word` say which (docs/refusals.md), as 4 and "Syntax". `subject` is the file, or what else the line
    speaks of, as the name of a template; "data" and "bundle.json" of `Templates`. `row` and `column` are the position
    in it, counted from 1; in JSON `pointer` is (RFC 6901), empty for the whole; what doesn't apply is None. `detail` is
    what a fault of `Templates` is about, a name, a type or the place of a value, or two of them with a line feed
    between; of `run` it is what follows the word on the line.
    """

    def __init__(self, status: int, line: str):
        super().__init__(status, line)
        self.code: Optional[int] = None
        self.word = self.detail = ""
        self.subject = line
        self.row: Optional[int] = None
        self.column: Optional[int] = None
        self.pointer: Optional[str] = None
        said = _REFUSAL.fullmatch(line)
        if said:
            self.subject, self.code = said["subject"], int(said["code"])
            self.word, self.detail = said["word"], said["detail"]
            self._find_position()

    def _find_position(self) -> None:
        place = _POSITION.fullmatch(self.subject)
        if place:
            self.subject, self.row, self.column = place["file"], int(place["row"]), int(place["column"])
            return
        place = _POINTER.fullmatch(self.subject)
        if place:
            self.subject, self.pointer = place["file"], place["pointer"]


class TooDeep(Refused):
    """Templates called each other more than 100 deep. `page` is what was read of the page up to that call by `read` or
    `render_text`; a loop over the page has had it already."""

    page = b""


class Malformed(SoycError):
    """A word, or the name of a file or a template, isn't text."""


class Closed(SoycError):
    """The templates or the page were closed before."""


class Result(NamedTuple):
    """The status of a command, and what the program writes to its output and to standard error."""

    status: int
    out: bytes
    err: bytes


_MEANINGS = {
    MEMORY: "out of memory",
    USAGE: "no files, or more than 64",
    MALFORMED: "a word, or the name of a file or of a template, isn't UTF-8",
    EMPTY: "closed before",
}
_ERRORS = {
    MEMORY: OutOfMemory,
    USAGE: UsageError,
    READ: MissingFile,
    REFUSED: Refused,
    TOO_DEEP: TooDeep,
    MALFORMED: Malformed,
    EMPTY: Closed,
}
_REFUSAL = re.compile(r"(?P<subject>.*?): (?P<code>\d+) (?P<word>\w+)(?:: |\s*)(?P<detail>.*)", re.DOTALL)
_POSITION = re.compile(r"(?P<file>.*):(?P<row>\d+):(?P<column>\d+)", re.DOTALL)
_POINTER = re.compile(r"(?P<file>.*?):(?P<pointer>(?:/.*)?)", re.DOTALL)

# The first room for what comes out, in bytes. A command whose answer is longer runs twice.
_FIRST_ROOM = 65_536
# The first room for a line about a fault.
_LINE_ROOM = 1_024
# How much of a page is asked for at once.
_PIECE = 16_384


class _Part(ctypes.Structure):
    _fields_ = [("begin", ctypes.c_size_t), ("end", ctypes.c_size_t)]


class _File(ctypes.Structure):
    _fields_ = [("name", _Part), ("content", _Part)]


class _Lengths(ctypes.Structure):
    _fields_ = [("out", ctypes.c_size_t), ("err", ctypes.c_size_t)]


class _Slot(ctypes.Structure):
    """A slot for templates or for a page."""

    _fields_ = [("held", ctypes.c_void_p)]


class _Fault(ctypes.Structure):
    _fields_ = [
        ("code", ctypes.c_uint32), ("subject", ctypes.c_uint32), ("file", ctypes.c_size_t),
        ("line", ctypes.c_uint64), ("column", ctypes.c_uint64), ("err", ctypes.c_size_t),
        ("message", _Part), ("word", _Part), ("pointer", _Part), ("detail", _Part),
    ]


_NOWHERE, _IN_FILE, _IN_BUNDLE, _IN_NAME, _IN_DATA = range(5)


def _library() -> Any:
    here = os.path.dirname(os.path.abspath(__file__))
    beside = os.path.join(here, "..", "..", "dist", "out", "libsoyc.so")
    library = ctypes.CDLL(os.environ.get("SOYC_LIBRARY") or beside)
    text, size, to = ctypes.c_char_p, ctypes.c_size_t, ctypes.POINTER
    line = [text, size, to(_Fault)]
    for name, arguments in {
        "soyc_run": [text, size, to(_Part), size, to(_File), size, text, size, text, size, to(_Lengths)],
        "soyc_compile": [text, size, to(_File), size, to(_File), size, to(_Slot), *line],
        "soyc_open": [to(_Slot), text, size, text, size, to(_Slot), *line],
        "soyc_pull": [to(_Slot), text, size, to(size), *line],
        "soyc_close": [to(_Slot)],
        "soyc_free": [to(_Slot)],
    }.items():
        function = getattr(library, name)
        function.restype, function.argtypes = ctypes.c_uint32, arguments
    return library


_soyc = _library()


class _Bytes:
    """The bytes of a call, and the parts of them."""

    def __init__(self) -> None:
        self.pieces: list = []
        self.length = 0

    def put(self, text: Text) -> _Part:
        piece = text.encode() if isinstance(text, str) else bytes(text)
        begin = self.length
        self.pieces.append(piece)
        self.length += len(piece)
        return _Part(begin, self.length)

    def put_name(self, name: Text) -> _Part:
        return self.put(_name_bytes(name))


def _name_bytes(name: Text) -> bytes:
    """The bytes of a word or a name. A surrogate becomes bytes that aren't UTF-8, of which the call says so."""
    return name.encode("utf-8", "surrogatepass") if isinstance(name, str) else bytes(name)


def _files(whole: _Bytes, files: Mapping[Text, Text]) -> Any:
    """The files as an array, of at least one since no pointer may be null."""
    return (_File * max(1, len(files)))(*[_File(whole.put_name(it), whole.put(files[it])) for it in files])


def run(words: Sequence[Text], files: Mapping[Text, Text]) -> Result:
    """Runs a command, as run(["check", "-", "a.soy"], {"a.soy": source}), and says how it ended.

    The words are those of the command line without the program's name. A file's name is any text that the words use.
    """
    whole = _Bytes()
    # (no pointer may be null, also where nothing is there)
    word_parts = (_Part * max(1, len(words)))(*[whole.put_name(word) for word in words])
    file_parts = _files(whole, files)
    read = b"".join(whole.pieces)
    lengths, rooms = _Lengths(), (_FIRST_ROOM, _FIRST_ROOM)
    while True:
        out, err = (ctypes.create_string_buffer(room) for room in rooms)
        status = _soyc.soyc_run(
            read, len(read), word_parts, len(words), file_parts, len(files),
            out, rooms[0], err, rooms[1], ctypes.byref(lengths),
        )
        if lengths.out <= rooms[0] and lengths.err <= rooms[1]:
            return Result(status, out.raw[: lengths.out], err.raw[: lengths.err])
        rooms = (max(rooms[0], lengths.out), max(rooms[1], lengths.err))


def _done(result: Result) -> bytes:
    """The answer of a command that was done; raises what another status means."""
    if result.status == DONE:
        return result.out
    line = result.err.decode("utf-8", "replace").removesuffix("\n")
    error = _ERRORS.get(result.status, SoycError)(result.status, line)
    if isinstance(error, TooDeep):
        error.page = result.out
    raise error


class _Family:
    """Compiled templates, with what the calls with them and their pages share: the lock, and rooms."""

    def __init__(self, files: Mapping[str, Text], bundle: Optional[Text]):
        self.lock = threading.RLock()
        self.names = list(files)
        self.slot = _Slot()
        self.fault, self.given = _Fault(), ctypes.c_size_t()
        self.piece = ctypes.create_string_buffer(_PIECE)
        self.line = ctypes.create_string_buffer(_LINE_ROOM)
        whole = _Bytes()
        sources = _files(whole, files)
        bundles = _files(whole, {} if bundle is None else {"bundle.json": bundle})
        read = b"".join(whole.pieces)
        self.call(
            _soyc.soyc_compile, read, len(read), sources, len(files), bundles, int(bundle is not None), self.slot
        )

    def call(self, function: Any, *arguments: Any) -> None:
        """One call with its room for a line; raises what its status means."""
        with self.lock:
            while True:
                status = function(*arguments, self.line, len(self.line), self.fault)
                if status == DONE:
                    return
                if self.fault.err <= len(self.line):
                    raise self._error(status)
                self.line = ctypes.create_string_buffer(self.fault.err)

    def _error(self, status: int) -> SoycError:
        line = self._said(self.fault.message)
        error = _ERRORS.get(status, SoycError)(status, line)
        if isinstance(error, Refused):
            self._fill(error)
        return error

    def _fill(self, error: "Refused") -> None:
        """Puts into the error what the fault says by itself, instead of what is read of its line."""
        fault = self.fault
        error.code, error.word = fault.code, self._said(fault.word)
        error.detail = self._said(fault.detail)
        error.row = error.column = error.pointer = None
        if fault.subject == _IN_FILE:
            error.subject, error.row, error.column = self.names[fault.file], fault.line, fault.column
        elif fault.subject in (_IN_BUNDLE, _IN_DATA):
            error.subject = "data" if fault.subject == _IN_DATA else "bundle.json"
            # (none where they are too large, and empty for the whole of them)
            error.pointer = self._said(fault.pointer) if fault.pointer.end else None
        else:
            error.subject = error.line.removesuffix(f": {error.code} {error.word}")

    def _said(self, part: _Part) -> str:
        return self.line.raw[part.begin : part.end].decode("utf-8", "replace")

    def free(self) -> None:
        with self.lock:
            _soyc.soyc_free(self.slot)


class Page:
    """An open page: an iterator of its bytes, each piece made when it is asked for.

    `with` or `close` gives it up before its end; a page that is left to itself is closed as it goes.
    """

    def __init__(self, family: _Family, name: str, data: Text):
        self._slot = _Slot()
        self._family = family
        encoded = _name_bytes(name)
        read = data.encode() if isinstance(data, str) else bytes(data)
        family.call(_soyc.soyc_open, family.slot, encoded, len(encoded), read, len(read), self._slot)

    def __iter__(self) -> Iterator[bytes]:
        return self

    def __next__(self) -> bytes:
        """The next bytes. Raises TooDeep where the page ends at a call that nests too deep, and OutOfMemory, after
        which the next bytes may be asked for again."""
        family = self._family
        with family.lock:
            family.call(_soyc.soyc_pull, self._slot, family.piece, _PIECE, family.given)
            given = family.given.value
            if given > 0:
                return ctypes.string_at(family.piece, given)
        raise StopIteration

    def read(self) -> bytes:
        """All that is left of the page."""
        pieces: list = []
        try:
            pieces.extend(self)
        except TooDeep as error:
            error.page = b"".join(pieces)
            raise
        return b"".join(pieces)

    def close(self) -> None:
        with self._family.lock:
            _soyc.soyc_close(self._slot)

    def __enter__(self) -> "Page":
        return self

    def __exit__(self, *_: Any) -> None:
        self.close()

    def __del__(self) -> None:
        # (an opening may have failed before there was a family)
        if "_family" in self.__dict__:
            self.close()


class Templates:
    """Files of templates with the translations of one language, compiled, of which pages are rendered."""

    def __init__(self, files: Mapping[str, Text], bundle: Optional[Text] = None):
        """Files by name, and the JSON of a bundle of translations, or None for the language of the templates.

        Raises Refused for the first fault of the files or the bundle.
        """
        self._files = dict(files)
        self._family = _Family(self._files, bundle)

    def render(self, name: str, data: Any = None) -> Page:
        """The page of the template with this full name, as "shop.list.main", as an iterator of bytes.

        The data are a mapping of the template's parameters, or their JSON as str or bytes. Raises Refused where there
        is no such template or the data don't fit it: so from a page that is open only TooDeep and OutOfMemory come.
        """
        if not isinstance(data, (str, bytes)):
            data = json.dumps({} if data is None else data, ensure_ascii=False)
        return Page(self._family, name, data)

    def render_text(self, name: str, data: Any = None) -> str:
        """The whole page as text. Raises TooDeep, with the page so far, at a call that nests too deep."""
        with self.render(name, data) as page:
            return page.read().decode()

    def messages(self) -> Any:
        """The texts of the files to translate, as docs/messages.md shows them."""
        return json.loads(_done(run(["extract", *self._files], self._files)))

    def close(self) -> None:
        """Gives back the memory once no page is open; pages that are open go on."""
        self._family.free()

    def __enter__(self) -> "Templates":
        return self

    def __exit__(self, *_: Any) -> None:
        self.close()

    def __del__(self) -> None:
        if "_family" in self.__dict__:
            self.close()
