"""Names of CPE 2.3 in other forms, how two names relate, and sessions over lines: the library for C, called by ctypes.

    import cpe
    print(cpe.unbind("cpe:2.3:a:vendor:thing:1.0:*:*:*:*:*:*:*"))
    print(cpe.covers("cpe:2.3:a:vendor:thing:*:*:*:*:*:*:*:*", "cpe:/a:vendor:thing:1.0"))
    with cpe.Session("watch") as session:
        for record in records:
            print(session.line(record).decode(), end="")
        print(session.end().decode(), end="")
    print(session.status)

Texts are bytes, or str that is put into UTF-8. The library is CPE_LIBRARY of the environment, or that which the system
finds.
"""

import ctypes
import ctypes.util
import os
from typing import Dict, Optional, Union

Text = Union[bytes, str]

DONE, SHORT, REFUSED, TARGET_REFUSED, MEMORY, NO_COMMAND, NOT_A_LINE, OVER, MISUSE = range(9)

RELATIONS = ("DISJOINT", "EQUAL", "SUBSET", "SUPERSET", "UNDEFINED")
ATTRIBUTES = ("part", "vendor", "product", "version", "update", "edition", "language", "sw_edition", "target_sw", "target_hw", "other")


class Refused(ValueError):
    """No name has the text. `place` is where a formatted string or a URI fails; `target` is True for the second of two
    texts."""

    def __init__(self, place: int, target: bool = False) -> None:
        super().__init__(f"no name has the {'second ' if target else ''}text: it goes wrong at byte {place}")
        self.place = place
        self.target = target


class _Relations(ctypes.Structure):
    _fields_ = [(name, ctypes.c_ubyte) for name in ("whole", *ATTRIBUTES)]


def _load() -> ctypes.CDLL:
    found = os.environ.get("CPE_LIBRARY") or ctypes.util.find_library("cpe") or "libcpe.so.0"
    library = ctypes.CDLL(found)
    text, size, number = ctypes.c_char_p, ctypes.c_size_t, ctypes.POINTER(ctypes.c_size_t)
    session = ctypes.c_void_p
    for name in ("cpe_unbind", "cpe_bind_fs", "cpe_bind_uri"):
        getattr(library, name).argtypes = [text, size, text, size, number]
    library.cpe_relate.argtypes = [text, size, text, size, ctypes.POINTER(_Relations), number]
    library.cpe_covers.argtypes = [text, size, text, size, ctypes.POINTER(ctypes.c_int), number]
    library.cpe_session_open.argtypes = [text, text, ctypes.POINTER(session)]
    library.cpe_session_line.argtypes = [session, text, size, text, size, number]
    library.cpe_session_end.argtypes = [session, text, size, number, ctypes.POINTER(ctypes.c_int)]
    library.cpe_session_answer.argtypes = [session, text, size, number]
    library.cpe_session_close.argtypes = [session]
    library.cpe_session_close.restype = None
    return library


_library = _load()


def _bytes(text: Text) -> bytes:
    # (bytes of a number would be as many zeros)
    return text.encode() if isinstance(text, str) else bytes(memoryview(text))


def _word(word: Optional[str]) -> Optional[bytes]:
    # (in C a word ends at a zero byte, and an empty second one is none)
    if word is not None and (not word or "\0" in word):
        raise ValueError("a word is empty or has a zero byte in it")
    return None if word is None else word.encode()


def _judge(code: int, number: int) -> None:
    """Raises what a code means that is neither DONE nor SHORT."""
    if code in (REFUSED, TARGET_REFUSED):
        raise Refused(number, code == TARGET_REFUSED)
    if code == MEMORY:
        raise MemoryError("out of memory")
    if code == NO_COMMAND:
        raise ValueError("the words name no command that answers lines")
    if code == NOT_A_LINE:
        raise ValueError("the line has a newline in it")
    if code == OVER:
        raise RuntimeError("the session is over")
    if code == MISUSE:
        raise ValueError("the call is misused")


def _other_form(call, text: Text) -> str:
    given, number = _bytes(text), ctypes.c_size_t()
    room = ctypes.create_string_buffer(4096)
    code = call(given, len(given), room, len(room), ctypes.byref(number))
    if code == SHORT:
        room = ctypes.create_string_buffer(number.value)
        code = call(given, len(given), room, len(room), ctypes.byref(number))
    _judge(code, number.value)
    return ctypes.string_at(room, number.value).decode()


def unbind(text: Text) -> str:
    """The text of the well-formed name that has this formatted string or URI; or `Refused`."""
    return _other_form(_library.cpe_unbind, text)


def bind_fs(text: Text) -> str:
    """The formatted string of the well-formed name that has this text; or `Refused`, at 0."""
    return _other_form(_library.cpe_bind_fs, text)


def bind_uri(text: Text) -> str:
    """The canonical URI of the well-formed name that has this text; or `Refused`, at 0."""
    return _other_form(_library.cpe_bind_uri, text)


def relate(source: Text, target: Text) -> Dict[str, str]:
    """How two names relate, formatted strings or URIs: as `whole`, and by attribute."""
    a, b, found, number = _bytes(source), _bytes(target), _Relations(), ctypes.c_size_t()
    _judge(_library.cpe_relate(a, len(a), b, len(b), ctypes.byref(found), ctypes.byref(number)), number.value)
    return {name: RELATIONS[getattr(found, name)] for name in ("whole", *ATTRIBUTES)}


def covers(source: Text, target: Text) -> bool:
    """Whether the first name covers the second."""
    a, b, found, number = _bytes(source), _bytes(target), ctypes.c_int(), ctypes.c_size_t()
    _judge(_library.cpe_covers(a, len(a), b, len(b), ctypes.byref(found), ctypes.byref(number)), number.value)
    return found.value == 1


class Session:
    """A session of a command, as `Session("watch")` or `Session("bind", "fs")`. It is used in the thread that made
    it."""

    def __init__(self, word: str, second: Optional[str] = None) -> None:
        self.status: Optional[int] = None
        self._session = ctypes.c_void_p()
        self._room = ctypes.create_string_buffer(4096)
        _judge(_library.cpe_session_open(_word(word), _word(second), ctypes.byref(self._session)), 0)

    def line(self, line: Text) -> bytes:
        """What the program would write for this line, which is given without its newline."""
        given, number = _bytes(line), ctypes.c_size_t()
        code = _library.cpe_session_line(self._session, given, len(given), self._room, len(self._room), ctypes.byref(number))
        return self._answer(code, number)

    def end(self) -> bytes:
        """Ends the session, and returns the lines at the end of its output. `status` is then the exit status of the
        program."""
        number, status = ctypes.c_size_t(), ctypes.c_int()
        code = _library.cpe_session_end(self._session, self._room, len(self._room), ctypes.byref(number), ctypes.byref(status))
        answer = self._answer(code, number)
        self.status = status.value
        return answer

    def close(self) -> None:
        """Frees the session."""
        session, self._session = self._session, ctypes.c_void_p()
        _library.cpe_session_close(session)

    def _answer(self, code: int, number: ctypes.c_size_t) -> bytes:
        _judge(code, number.value)
        if code == SHORT:
            self._room = ctypes.create_string_buffer(number.value)
            code = _library.cpe_session_answer(self._session, self._room, len(self._room), ctypes.byref(number))
            _judge(code, number.value)
        return ctypes.string_at(self._room, number.value)

    def __enter__(self) -> "Session":
        return self

    def __exit__(self, *_: object) -> None:
        self.close()
