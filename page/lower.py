#!/usr/bin/env python3
"""page/lower.py FROM.wasm TO.wasm: a module with a 64-bit memory and 64-bit tables becomes one with 32-bit ones.

Each address is cut to 32 bits just before it is used; all else, the types of functions too, stays as it is. Engines that lack
memories of 64 bits run the result. It knows the instructions that LLVM writes for C without vectors, and refuses others.
"""
import sys

I32, I64, F32, F64 = 0x7F, 0x7E, 0x7D, 0x7C
WRAP, EXTEND_S, EXTEND_U = b"\xa7", b"\xac", b"\xad"
LOADS, STORES = range(0x28, 0x36), range(0x36, 0x3F)
STORED = {0x36: I32, 0x3A: I32, 0x3B: I32, 0x37: I64, 0x3C: I64, 0x3D: I64, 0x3E: I64, 0x38: F32, 0x39: F64}
# Locals of our own behind those of a function, by what they are for.
OWN = {"i32": (0, I32), "i64": (1, I64), "more": (2, I64), "f32": (3, F32), "f64": (4, F64)}
NAMED = {I32: "i32", I64: "i64", F32: "f32", F64: "f64"}


class Reader:
    def __init__(self, data, at=0):
        self.data, self.at = data, at

    def byte(self):
        self.at += 1
        return self.data[self.at - 1]

    def take(self, count):
        self.at += count
        return self.data[self.at - count : self.at]

    def number(self):
        value = shift = 0
        while True:
            byte = self.byte()
            value |= (byte & 0x7F) << shift
            shift += 7
            if byte < 0x80:
                return value

    def raw(self):
        """The bytes of a number, as they stand."""
        start = self.at
        while self.byte() >= 0x80:
            pass
        return self.data[start : self.at]


def unsigned(value):
    out = bytearray()
    while True:
        byte, value = value & 0x7F, value >> 7
        out.append(byte | (0x80 if value else 0))
        if not value:
            return bytes(out)


def signed32(value):
    value -= 1 << 32 if value >= 1 << 31 else 0
    out = bytearray()
    while True:
        byte, value = value & 0x7F, value >> 7
        if (value == 0 and not byte & 0x40) or (value == -1 and byte & 0x40):
            out.append(byte)
            return bytes(out)
        out.append(byte | 0x80)


def offset(reader):
    """The constant offset of a segment, cut to 32 bits."""
    if reader.byte() != 0x42:
        raise SystemExit("lower: an offset is not a constant of 64 bits")
    start = reader.at
    reader.raw()
    value = shift = 0
    for byte in reader.data[start : reader.at]:
        value |= (byte & 0x7F) << shift
        shift += 7
    if reader.byte() != 0x0B:
        raise SystemExit("lower: an offset is more than a constant")
    return b"\x41" + signed32(value & 0xFFFFFFFF) + b"\x0b"


def only_functions(section):
    """Refuses imports other than functions, whose types stay as they are."""
    for _ in range(section.number()):
        section.take(section.number())
        section.take(section.number())
        if section.byte():
            raise SystemExit("lower: an import that is no function is not known")
        section.number()


def limits(reader):
    flags = reader.byte()
    sizes = [reader.raw() for _ in range(2 if flags & 1 else 1)]
    return bytes([flags & ~4]) + b"".join(sizes)


def body(data, parameters):
    """A function's body, with each address cut."""
    reader = Reader(data)
    groups = [(reader.number(), reader.byte()) for _ in range(reader.number())]
    first = parameters + sum(count for count, _ in groups)
    out = bytearray()
    set_ = lambda name: b"\x21" + unsigned(first + OWN[name][0])
    get = lambda name: b"\x20" + unsigned(first + OWN[name][0])
    while reader.at < len(data):
        start = reader.at
        code = reader.byte()
        if code in (0x02, 0x03, 0x04, 0x0C, 0x0D, 0x10, 0x20, 0x21, 0x22, 0x23, 0x24, 0x41, 0x42, 0xD2):
            reader.raw()
        elif code == 0x0E:
            for _ in range(reader.number() + 1):
                reader.raw()
        elif code == 0x11:
            reader.raw(), reader.raw()
            out += WRAP
        elif code in LOADS or code in STORES:
            align, at = reader.number(), reader.number()
            if at >= 1 << 32:
                raise SystemExit("lower: an offset is beyond 32 bits")
            name = NAMED[STORED.get(code, I32)]
            out += WRAP if code in LOADS else set_(name) + WRAP + get(name)
            out += bytes([code]) + unsigned(align) + unsigned(at)
            continue
        elif code == 0x3F:
            reader.raw()
            out += data[start : reader.at] + EXTEND_U
            continue
        elif code == 0x40:
            reader.raw()
            out += WRAP + data[start : reader.at] + EXTEND_S
            continue
        elif code == 0x43:
            reader.take(4)
        elif code == 0x44:
            reader.take(8)
        elif code == 0x1C:
            reader.take(reader.number())
        elif code == 0xFC:
            kind = reader.number()
            if kind == 10:
                reader.raw(), reader.raw()
                out += set_("i64") + set_("more") + WRAP + get("more") + WRAP + get("i64") + WRAP
            elif kind == 11:
                reader.raw()
                out += set_("i64") + set_("i32") + WRAP + get("i32") + get("i64") + WRAP
            elif kind > 7:
                raise SystemExit(f"lower: instruction fc {kind} is not known")
        elif not (code in (0x00, 0x01, 0x05, 0x0B, 0x0F, 0x1A, 0x1B) or 0x45 <= code <= 0xC4):
            raise SystemExit(f"lower: instruction {code:#x} is not known")
        out += data[start : reader.at]
    own = [(1, kind) for _, kind in sorted(OWN.values())]
    head = unsigned(len(groups) + len(own)) + b"".join(unsigned(count) + bytes([kind]) for count, kind in groups + own)
    return head + bytes(out)


def lower(module):
    reader = Reader(module, 8)
    out = bytearray(module[:8])
    types, functions, imported = [], [], 0
    while reader.at < len(module):
        kind, size = reader.byte(), reader.number()
        section = Reader(reader.take(size))
        data = section.data
        if kind == 1:
            for _ in range(section.number()):
                section.byte()
                parameters = section.number()
                section.take(parameters)
                section.take(section.number())
                types.append(parameters)
        elif kind == 2:
            only_functions(section)
        elif kind == 3:
            functions = [section.number() for _ in range(section.number())]
        elif kind == 4:
            data = unsigned(section.number()) + bytes([section.byte()]) + limits(section)
        elif kind == 5:
            data = unsigned(section.number()) + limits(section)
        elif kind == 9:
            count = section.number()
            made = unsigned(count)
            for _ in range(count):
                flags = section.number()
                if flags:
                    raise SystemExit("lower: a segment of this kind is not known")
                made += b"\0" + offset(section)
                inside = section.number()
                made += unsigned(inside) + b"".join(section.raw() for _ in range(inside))
            data = made
        elif kind == 10:
            count = section.number()
            bodies = [body(section.take(section.number()), types[functions[i]]) for i in range(count)]
            data = unsigned(count) + b"".join(unsigned(len(it)) + it for it in bodies)
        elif kind == 11:
            count = section.number()
            made = unsigned(count)
            for _ in range(count):
                if section.number():
                    raise SystemExit("lower: a segment of this kind is not known")
                made += b"\0" + offset(section)
                size = section.number()
                made += unsigned(size) + section.take(size)
            data = made
        out += bytes([kind]) + unsigned(len(data)) + data
    return bytes(out)


if __name__ == "__main__":
    with open(sys.argv[1], "rb") as given:
        made = lower(given.read())
    with open(sys.argv[2], "wb") as to:
        to.write(made)
    print(f"lower: {sys.argv[2]} has {len(made)} bytes")
