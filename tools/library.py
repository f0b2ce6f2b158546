"""Calls the shared library as its exports are declared, and watches its outputs.

Before a call, each byte of its outputs and of the memory after each buffer has a mark. So the call is known to write what it should and nothing else.
"""

import ctypes
from typing import NamedTuple

import declarations

MARK = 0xA5
AFTER = 16  # the marked bytes after each buffer

VALUES = {"u8": ctypes.c_uint8, "u32": ctypes.c_uint32, "status": ctypes.c_uint32, "u64": ctypes.c_uint64, "size": ctypes.c_size_t}


def element_size(kind):
    """The bytes of an element of a buffer: the elements of `32 bytes in` are bytes."""
    return ctypes.sizeof(VALUES.get(kind.split(" ")[0], ctypes.c_uint8))


class Handle(ctypes.Structure):
    """A handle of the library. It starts empty."""

    _fields_ = [("session", ctypes.c_void_p)]


class Outcome(NamedTuple):
    status: str
    written: dict  # the outputs that are not as they were, by name; of a buffer, the elements up to the last that changed

    def __str__(self):
        return f"{self.status} {self.written or ''}".strip()


class Overrun(Exception):
    """A call changed memory that is none of its outputs."""


def marks(count):
    return bytes([MARK]) * count


def without_marks(elements):
    """Some elements, without the marks at their end. In a list each element has eight bytes."""
    mark = MARK if isinstance(elements, bytes) else int.from_bytes(marks(8), "little")
    count = len(elements)
    while count and elements[count - 1] == mark:
        count -= 1
    return elements[:count]


class Buffer(NamedTuple):
    """The memory of an input or an output: the bytes of the buffer, and marks after them."""

    name: str
    memory: ctypes.Array
    before: bytes

    def now(self, size):
        """The bytes of the buffer. Those after them have to be as they were."""
        now = bytes(self.memory)
        if now[size:] != self.before[size:]:
            raise Overrun(f"memory of {self.name} has changed that is no output")
        return now[:size]


def buffer(name, before):
    return Buffer(name, (ctypes.c_uint8 * len(before)).from_buffer_copy(before), before)


class Call:
    """The arguments of one call, from the given ones: a handle, a number, the bytes or numbers of an input, or the length of an output that is an array."""

    def __init__(self, parameters, given):
        self.arguments, self.inputs, self.outputs = [], [], []
        given, length = iter(given), 0
        for name, kind in parameters:
            if kind in VALUES:
                argument = next(given)
            elif kind in declarations.HANDLES:
                argument = ctypes.byref(next(given))
            elif kind == "length":
                argument = length
            else:
                size = next(given) if " array " in kind or kind.endswith(" in") else 1
                argument = self.add(name, kind, size)
                length = len(size) if kind.endswith(" in") else size
            self.arguments.append(argument)

    def add(self, name, kind, given):
        """Adds a buffer: with the bytes or numbers that are given, or for so many elements."""
        if kind.endswith(" in"):
            size = element_size(kind)
            added = buffer(name, b"".join(element.to_bytes(size, "little") for element in given) + marks(AFTER))
            self.inputs.append(added)
        else:
            size = given * element_size(kind)
            added = buffer(name, marks(size + AFTER))
            self.outputs.append((added, kind, size))
        return added.memory

    def written(self):
        found = {}
        for each in self.inputs:
            each.now(0)
        for each, kind, size in self.outputs:
            now = each.now(size)
            if now != each.before[:size]:
                found[each.name] = value_of(now, kind)
        return found


def value_of(data, kind):
    """The value of an output: a number, the bytes of a buffer, or its numbers."""
    if " array " not in kind:
        return int.from_bytes(data, "little")
    if kind == "u8 array out":
        return without_marks(data)
    return without_marks([int.from_bytes(data[at : at + 8], "little") for at in range(0, len(data), 8)])


class Library:
    def __init__(self, path):
        self.declared, loaded = declarations.declared(), ctypes.CDLL(str(path))
        self.names = {number: name for name, number in self.declared.numbers.items()}
        self.functions = {name: getattr(loaded, f"{declarations.PREFIX}{name}") for name in self.declared.functions}
        for name, function in self.functions.items():
            self.declare(function, self.declared.functions[name])

    def declare(self, function, declared):
        function.argtypes = [VALUES.get("size" if kind == "length" else kind, ctypes.c_void_p) for _, kind in declared.parameters]
        function.restype = ctypes.c_char_p if declared.result == "text" else ctypes.c_uint32

    def call(self, name, *given):
        """Calls a function that returns a status. What is given has no outputs, and for each array its elements or its length."""
        call = Call(self.declared.functions[name].parameters, given)
        status = self.functions[name](*call.arguments)
        return Outcome(self.names.get(status, str(status)), call.written())

    def outputs(self, name):
        """The names of the outputs of a function."""
        return [output for output, kind in self.declared.functions[name].parameters if kind.endswith(" out")]

    def text(self, status):
        return self.functions["status_text"](status).decode()


def outcome(status, written):
    """The outcome of a call that returns a status and writes these outputs."""
    values = {name: value if isinstance(value, int) else without_marks(value) for name, value in written.items()}
    return Outcome(status, {name: value for name, value in values.items() if isinstance(value, int) or value})
