#!/usr/bin/env python3
# SPDX-License-Identifier: Apache-2.0
"""Requests for `tabd replay` as frames, and its replies as terms, with only Python's standard library.

    frames.py ask                 an example session, as frames on standard output
    frames.py ask REQUEST ..      the frames of these requests
    frames.py ask --file FILE     the frames of a file's lines, each a request; - is standard input
    frames.py show                the terms of the frames on standard input, a line each

    frames.py ask '(1, "join")' '(1, ("create_table", "t", []))' | tabd replay | frames.py show

A frame is four bytes of length, the highest first, and a payload: the byte 131 and one term of Erlang's external term
format. A request is a Python literal in the form in which `show` prints terms: a str is an atom, an int an integer
of at most 128 bits, bytes a binary, a tuple a tuple, a list a list, and a dict a map, whose keys may be any terms. So
{1, {write, {person, 1, <<"alice">>}}} is

    (1, ("write", ("person", 1, b"alice")))

In a file, empty lines and comments after a # outside quotes are skipped. If a request is no such literal, its number, or its
line in a file, is printed; nothing else is written, and the exit status is 2. It is also 2 if `show` reads
bytes that are no frame of a term, after the terms before them. Any term can be asked, also one that is no request.
"""

import argparse
import ast
import io
import signal
import struct
import sys

SESSION = [
    (1, "join"),
    (1, ("create_table", "person", [])),
    (1, "begin"),
    (1, ("write", ("person", 1, "alice"))),
    (1, ("read", "person", 1)),
    (1, "commit"),
    (1, "leave"),
]


class Map(list):
    """The pairs of a map. No dict, since a key may be a list or a map."""

    def __repr__(self):
        return "{" + ", ".join(f"{key!r}: {value!r}" for key, value in self) + "}"


def spell_integer(number):
    if 0 <= number < 256:
        return bytes([97, number])
    if -(2**31) <= number < 2**31:
        return b"b" + struct.pack(">i", number)
    if not -(2**127) <= number < 2**127:
        raise ValueError("an integer of over 128 bits")
    digits = abs(number).to_bytes(16, "little").rstrip(b"\0")
    return bytes([110, len(digits), number < 0]) + digits


def spell_atom(atom):
    text = atom.encode()
    if len(atom) > 255:
        raise ValueError("an atom of over 255 characters")
    if len(text) < 256:
        return bytes([119, len(text)]) + text
    return b"v" + struct.pack(">H", len(text)) + text


def spell_list(terms):
    if not terms:
        return b"j"
    if len(terms) < 65536 and all(type(term) is int and 0 <= term < 256 for term in terms):
        return b"k" + struct.pack(">H", len(terms)) + bytes(terms)
    return b"l" + struct.pack(">I", len(terms)) + b"".join(map(spell, terms)) + b"j"


def spell_map(pairs):
    spelled = sorted((spell(key), spell(value)) for key, value in pairs)
    return b"t" + struct.pack(">I", len(spelled)) + b"".join(key + value for key, value in spelled)


def spell(term):
    """Encodes a term as tabd does."""
    if type(term) is int:
        return spell_integer(term)
    if isinstance(term, str):
        return spell_atom(term)
    if isinstance(term, bytes):
        return b"m" + struct.pack(">I", len(term)) + term
    if isinstance(term, tuple):
        head = bytes([104, len(term)]) if len(term) < 256 else b"i" + struct.pack(">I", len(term))
        return head + b"".join(map(spell, term))
    if isinstance(term, Map):
        return spell_map(term)
    if isinstance(term, list):
        return spell_list(term)
    raise ValueError(f"{term!r} is no atom, integer, binary, tuple, list or map")


def frame(term):
    payload = b"\x83" + spell(term)
    return struct.pack(">I", len(payload)) + payload


def take(stream, count):
    data = stream.read(count)
    if len(data) < count:
        raise ValueError("it ends too early")
    return data


def number(stream, size):
    return int.from_bytes(take(stream, size), "big")


def many(stream, count):
    return [read(stream) for _ in range(count)]


def read(stream):
    """Decodes a term as tabd encodes it."""
    tag = number(stream, 1)
    if tag == 97:
        return number(stream, 1)
    if tag == 98:
        return struct.unpack(">i", take(stream, 4))[0]
    if tag == 110:
        count, sign = take(stream, 2)
        magnitude = int.from_bytes(take(stream, count), "little")
        return -magnitude if sign else magnitude
    if tag in (118, 119):
        return take(stream, number(stream, 2 if tag == 118 else 1)).decode()
    if tag in (104, 105):
        return tuple(many(stream, number(stream, 1 if tag == 104 else 4)))
    if tag == 106:
        return []
    if tag == 107:
        return list(take(stream, number(stream, 2)))
    if tag == 108:
        terms = many(stream, number(stream, 4))
        take(stream, 1)
        return terms
    if tag == 109:
        return take(stream, number(stream, 4))
    if tag == 116:
        return Map((read(stream), read(stream)) for _ in range(number(stream, 4)))
    raise ValueError(f"tag {tag} is not read here")


def lines_of(path):
    """The requests of a file: their lines' numbers and texts."""
    data = sys.stdin.buffer.read() if path == "-" else open(path, "rb").read()
    lines = enumerate(data.decode().split("\n"), 1)
    return [(at, line) for at, line in lines if line.strip() and not line.lstrip().startswith("#")]


def fail(where, error):
    print(f"frames.py: {where}: {error}", file=sys.stderr)
    sys.exit(2)


def value_of(node):
    if isinstance(node, ast.Dict):
        return Map(zip(map(value_of, node.keys), map(value_of, node.values)))
    if isinstance(node, (ast.Tuple, ast.List)):
        values = map(value_of, node.elts)
        return list(values) if isinstance(node, ast.List) else tuple(values)
    return ast.literal_eval(node)


def literal(text):
    try:
        return value_of(ast.parse(text.strip(), mode="eval").body)
    except (SyntaxError, ValueError):
        raise ValueError(f"{text.strip()} is no Python literal") from None


def ask(requests, place):
    """Writes the frames of all requests, or of none."""
    frames = []
    for at, text in requests:
        try:
            frames.append(frame(literal(text)))
        except ValueError as error:
            fail(f"{place} {at}", error)
        except (RecursionError, MemoryError):
            fail(f"{place} {at}", "it is too deep")
    sys.stdout.buffer.write(b"".join(frames))


def show(stream):
    at = 1
    try:
        while head := stream.read(1):
            payload = io.BytesIO(take(stream, int.from_bytes(head + take(stream, 3), "big")))
            if number(payload, 1) != 131:
                raise ValueError("its first byte is not 131")
            print(repr(read(payload)), flush=True)
            at += 1
    except ValueError as error:
        fail(f"frame {at}", error)


def main():
    form = argparse.RawDescriptionHelpFormatter
    parser = argparse.ArgumentParser(description=__doc__, formatter_class=form)
    parser.add_argument("what", choices=["ask", "show"])
    parser.add_argument("--file", help="requests to ask, a line each; - is standard input")
    parser.add_argument("request", nargs="*", help="a request to ask, as a Python literal")
    words = parser.parse_args()
    if words.request and words.file or words.what == "show" and (words.request or words.file):
        parser.error("ask takes requests as arguments or from a file, and show takes none")
    # The reader may end first, as `head` does: then this ends too, silently.
    if hasattr(signal, "SIGPIPE"):
        signal.signal(signal.SIGPIPE, signal.SIG_DFL)
    if words.what == "show":
        show(sys.stdin.buffer)
    elif words.file:
        try:
            lines = lines_of(words.file)
        except (OSError, ValueError) as error:
            fail(words.file, error)
        ask(lines, "line")
    elif words.request:
        ask(list(enumerate(words.request, 1)), "request")
    else:
        ask([(at, repr(request)) for at, request in enumerate(SESSION, 1)], "request")


if __name__ == "__main__":
    main()
