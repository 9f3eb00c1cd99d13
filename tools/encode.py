"""Encodes a pack. Each item of a record can be given as its bytes instead, so that any item can be spoiled."""
import struct

# where a pack is to end: `pack` leaves out all that follows
CUT = b'<the pack is cut here>'
NO = b'\x00'


def num(n):
    out = bytearray()
    while n >= 128:
        out.append(n % 128 + 128)
        n //= 128
    return bytes(out) + bytes([n])


def longer(n, length):
    """n in more bytes than it needs."""
    short = num(n)
    assert len(short) < length
    return short[:-1] + bytes([short[-1] + 128]) + b'\x80' * (length - len(short) - 1) + b'\x00'


def text(t):
    """A text: its letters, or its item's bytes."""
    return num(len(t)) + t.encode() if isinstance(t, str) else t


def number(n):
    return num(n) if isinstance(n, int) else n


def f64(x):
    return struct.pack('<d', x)


def opt(item):
    return b'\x01' + item


def listed(records):
    """A list: its records, or its bytes."""
    return records if isinstance(records, bytes) else num(len(records)) + b''.join(records)


def field_type(name='T', flags=num(2), size=num(8), resolution=f64(1.0), root=''):
    return text(name) + flags + size + resolution + text(root)


def pair(value, name):
    return num(value) + text(name)


def triplet(first, second, name):
    return num(first) + num(second) + text(name)


def fieldtype_entry(value, name, fieldtype, nested=NO):
    return pair(value, name) + text(fieldtype) + nested


def lookup(name, kind=0, bits=8, entries=()):
    return text(name) + number(kind) + number(bits) + listed(entries)


def rep(count, start, counter=NO, nested=NO):
    """A repeating set."""
    return num(count) + num(start) + counter + nested


def pgn(number_=127488, id='a', type=num(0), flags=num(0), length=num(8), minimum=NO, set1=NO, set2=NO, fields=()):
    return number(number_) + text(id) + type + flags + length + minimum + set1 + set2 + listed(fields)


def field(id='f', name='F', type='NUMBER', ft=num(0), flags=num(0), res_bits=num(8), res_resolution=f64(1.0), res_offset=f64(0.0),
          res_unit=NO, resolution=NO, offset=NO, spn=NO, continues=NO, match=NO, reference=NO, special_values=NO,
          bit_length_field=NO, trailing_zero=NO, continuation=NO):
    return (text(id) + text(name) + text(type) + ft + flags + res_bits + res_resolution + res_offset + res_unit + resolution + offset
            + spn + continues + match + reference + special_values + bit_length_field + trailing_zero + continuation)


def pack(version=num(1), types=(), lookups=(), trees=((), (), ())):
    made = version + listed(types) + listed(lookups) + b''.join(listed(t) for t in trees)
    return made.split(CUT)[0]
