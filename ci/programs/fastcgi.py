"""A client of FastCGI that asks for one page on a connection of its own."""
import socket
import struct

from gate.addresses import place_of

BEGIN, END, PARAMS, INPUT, OUTPUT = 1, 3, 4, 5, 6
RESPONDER = struct.pack(">HB5x", 1, 0)
HEAD = struct.Struct(">BBHHBx")


def record(kind: int, content: bytes) -> bytes:
    return HEAD.pack(1, kind, 1, len(content), 0) + content


def params(values: dict[str, str]) -> bytes:
    """Names and values, each after its length."""
    found = b""
    for name, value in values.items():
        for text in (name, value):
            found += struct.pack(">B", len(text)) if len(text) < 128 else struct.pack(">I", len(text) | 1 << 31)
        found += name.encode() + value.encode()
    return found


def answer_of(address: str, script: str, path: str, seconds: float) -> str:
    """The text of an answer. Raises OSError, for an answer that is not whole too."""
    values = {"REQUEST_METHOD": "GET", "SCRIPT_FILENAME": script, "REQUEST_URI": path, "SERVER_PROTOCOL": "HTTP/1.1"}
    asked = record(BEGIN, RESPONDER) + record(PARAMS, params(values)) + record(PARAMS, b"") + record(INPUT, b"")
    with socket.create_connection(place_of(address), seconds) as connection:
        connection.sendall(asked)
        with connection.makefile("rb") as got:
            said = b""
            while True:
                head = got.read(HEAD.size)
                if len(head) < HEAD.size:
                    raise ConnectionResetError(f"an answer that is cut: {said[:100]!r}")
                _, kind, _, length, padding = HEAD.unpack(head)
                content = got.read(length + padding)[:length]
                said += content if kind == OUTPUT else b""
                if kind == END:
                    return said.decode().partition("\r\n\r\n")[2]
