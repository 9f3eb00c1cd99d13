"""Decodes a pack by document 01, and says what the programs load_packs and list_pack must print of it."""


class Refused(Exception):
    def __init__(self, number, detail):
        self.number, self.detail = number, detail


class Reader:
    """Reads items one after the other. `begun` is where the latest one begins."""

    def __init__(self, data):
        self.data, self.at, self.begun = data, 0, 0

    def refuse(self, number):
        raise Refused(number, self.begun)

    def number(self, width=32):
        self.begun = self.at
        groups = []
        while not groups or groups[-1] >= 128:
            if self.at == len(self.data):
                self.refuse(1)
            groups.append(self.data[self.at])
            self.at += 1
        if len(groups) > 1 and groups[-1] == 0:
            self.refuse(2)
        value = sum((g & 127) << (7 * i) for i, g in enumerate(groups))
        if value >> width:
            self.refuse(2)
        return value

    def of(self, *values):
        """A code or mark, one of the values."""
        n = self.number()
        if n not in values:
            self.refuse(4)
        return n

    def flags(self, *flags):
        n = self.number()
        if n & ~sum(flags):
            self.refuse(4)
        return [bool(n & f) for f in flags]

    def sum(self, other):
        """A number that completes a sum."""
        n = self.number()
        if n + other > 4294967295:
            self.refuse(7)
        return n

    def text(self):
        n = self.number()
        if len(self.data) - self.at < n:
            self.refuse(1)
        self.at += n
        return self.data[self.at - n:self.at]

    def float(self):
        self.begun = self.at
        if len(self.data) - self.at < 8:
            self.refuse(1)
        self.at += 8
        return int.from_bytes(self.data[self.at - 8:self.at], 'little')

    def optional(self, item):
        return item() if self.of(0, 1) else None


class Pack:
    """The records, each with its offset, and all offsets in the order of the work buffer."""

    def __init__(self, data):
        if len(data) > 1048576:
            raise Refused(9, 0)
        self.offsets, self.places = [], []
        self.r = r = Reader(data)
        if r.number() != 1:
            r.refuse(3)
        self.types = self.section(self.field_type)
        self.last = None
        self.lookups = self.section(self.lookup)
        self.trees = [self.section(self.pgn) for tree in range(3)]
        r.begun = r.at
        if r.at < len(data):
            r.refuse(8)

    def record(self, read):
        at = self.r.at
        self.offsets.append(at)
        return dict(read(), at=at)

    def list(self, read):
        return [self.record(read) for i in range(self.r.number())]

    def section(self, read):
        self.places.append(len(self.offsets))
        return self.list(read)

    def field_type(self):
        r = self.r
        return dict(name=r.text(), flags=r.flags(1, 2, 4), size=r.number(), resolution=r.float(), root=r.text())

    def lookup(self):
        r = self.r
        name = r.text()
        if self.last is not None and not self.last < name:
            r.refuse(5)
        self.last = name
        kind = r.of(0, 1, 2, 3)
        return dict(name=name, kind=kind, bits=r.number(), entries=self.list([self.pair, self.triplet, self.pair, self.typed][kind]))

    def pair(self):
        return dict(values=[self.r.number(64)], name=self.r.text())

    def triplet(self):
        return dict(values=[self.r.number(64), self.r.number(64)], name=self.r.text())

    def typed(self):
        return dict(self.pair(), fieldtype=self.r.text(), nested=self.r.optional(self.r.text))

    def set(self):
        r = self.r
        count = r.number()
        return dict(count=count, start=r.sum(count), counter=r.optional(r.number), nested=r.of(0, 1))

    def minimum(self):
        n = self.r.number()
        if n * 8 > 4294967295:
            self.r.refuse(7)
        return n

    def pgn(self):
        r = self.r
        self.total = 0
        return dict(
            number=r.number(), id=r.text(), type=r.of(0, 1, 2, 3), flags=r.flags(1, 2, 4), length=r.number(),
            minimum=r.optional(self.minimum), sets=[r.optional(self.set), r.optional(self.set)], fields=self.list(self.field))

    def index(self):
        n = self.r.number()
        if n >= len(self.types):
            self.r.refuse(6)
        return n

    def field(self):
        r = self.r
        f = dict(id=r.text(), name=r.text(), type=r.text(), ft=self.index(), flags=r.flags(1, 2, 4, 8, 16, 32))
        f['bits'] = r.sum(self.total)
        self.total += f['bits']
        return dict(
            f, res_resolution=r.float(), res_offset=r.float(), unit=r.optional(r.text), resolution=r.optional(r.float),
            offset=r.optional(r.float), spn=r.optional(r.number), continues=r.optional(r.text), match=r.optional(r.text),
            reference=r.optional(lambda: (r.of(0, 1, 2, 3), r.text())), special=r.optional(r.number),
            length=r.optional(r.text), trailing=r.optional(r.text), continuation=r.optional(lambda: r.sum(f['bits'])))


# ---- what load_packs prints

def loaded(data, work):
    """A load with that many numbers of a work buffer."""
    try:
        p = Pack(data)
        if work < len(p.offsets):
            raise Refused(21, len(p.offsets))
    except Refused as e:
        return 'refused %d detail %d, kept' % (e.number, e.detail)
    lists = zip(['types', 'lookups', 'nmea2000', 'j1939', 'quick'], [p.types, p.lookups] + p.trees, p.places)
    words = ['%s %d at %d' % (name, len(records), place) for name, records, place in lists]
    return ', '.join(words + ['records %d' % len(p.offsets), ' '.join(map(str, ['offsets'] + p.offsets)), 'kept'])


def report(name, data):
    try:
        n = len(Pack(data).offsets)
        works = [64] + ([n - 1] if n else []) + [n, n + 1]
    except Refused:
        works = [64, 0]
    return '\n'.join([name] + ['  work of %d: %s' % (w, loaded(data, w)) for w in works]) + '\n'


# ---- what list_pack prints of an accepted pack

def given(words, value):
    return b', %s %s' % (words, value) if value is not None else b''


def decimal(n):
    return None if n is None else b'%d' % n


def pattern(n):
    return None if n is None else b'%016x' % n


def named(flags, names):
    return b''.join(b', ' + name for flag, name in zip(flags, names) if flag)


def counted(n, one, many):
    return b'%d %s' % (n, one if n == 1 else many)


KINDS = [b'pair', b'triplet', b'bit', b'fieldtype']


def list_type(i, t):
    return b'  %d %s at byte %d: size %d, resolution %016x, root %s%s\n' % (
        i, t['name'], t['at'], t['size'], t['resolution'], t['root'], named(t['flags'], [b'base', b'print function', b'signed']))


def list_lookup(i, l):
    out = b'  %d %s at byte %d: %s, %s, %s\n' % (
        i, l['name'], l['at'], KINDS[l['kind']], counted(l['bits'], b'bit', b'bits'), counted(len(l['entries']), b'entry', b'entries'))
    for e in l['entries']:
        out += b'    %s %s at byte %d%s%s\n' % (
            b' '.join(map(decimal, e['values'])), e['name'], e['at'],
            given(b'field type', e.get('fieldtype')), given(b'nested lookup', e.get('nested')))
    return out


def list_set(i, s):
    return b'' if s is None else b'    set %d: start %d, count %d%s%s\n' % (
        i, s['start'], s['count'], given(b'countField', decimal(s['counter'])), b', nested' if s['nested'] else b'')


def list_field(order, f, types):
    flags = [b'bits given', b'unit given', b'proprietary', b'allowLookupWidthMismatch', b'dynamicFieldLength', b'overhead']
    reference = f['reference'] and KINDS[f['reference'][0]] + b' ' + f['reference'][1]
    return b'    %d %s "%s" at byte %d: type %s, field type %d %s, %s, resolution %016x, offset %016x%s' % (
        order, f['id'], f['name'], f['at'], f['type'], f['ft'], types[f['ft']]['name'], counted(f['bits'], b'bit', b'bits'), f['res_resolution'],
        f['res_offset'], named(f['flags'], flags)) + b''.join([
            given(b'unit', f['unit']), given(b'authored resolution', pattern(f['resolution'])),
            given(b'authored offset', pattern(f['offset'])), given(b'spn', decimal(f['spn'])), given(b'continues', f['continues']),
            given(b'match', f['match']), given(b'reference', reference), given(b'specialValues', decimal(f['special'])),
            given(b'bitLengthField', f['length']), given(b'trailing zero of', f['trailing']),
            given(b'continuation width', decimal(f['continuation']))]) + b'\n'


def list_pgn(p, types):
    flags = [b'fallback', b'variable', b'MissingCompanyFields']
    out = b'  %d %s at byte %d: %s, length %d%s%s, %s\n' % (
        p['number'], p['id'], p['at'], [b'Single', b'Fast', b'ISO', b'Mixed'][p['type']], p['length'],
        given(b'minimum', decimal(p['minimum'])), named(p['flags'], flags), counted(len(p['fields']), b'field', b'fields'))
    out += list_set(1, p['sets'][0]) + list_set(2, p['sets'][1])
    return out + b''.join(list_field(i + 1, f, types) for i, f in enumerate(p['fields']))


def listing(data):
    p = Pack(data)
    out = b'pack of %d bytes, version 1, %s\n' % (len(data), counted(len(p.offsets), b'record', b'records'))
    out += b'field types %d\n' % len(p.types) + b''.join(list_type(i, t) for i, t in enumerate(p.types))
    out += b'lookups %d\n' % len(p.lookups) + b''.join(list_lookup(i, l) for i, l in enumerate(p.lookups))
    for i, name in enumerate([b'NMEA 2000', b'J1939', b'Quick']):
        out += b'tree %d %s, PGNs %d\n' % (i, name, len(p.trees[i])) + b''.join(list_pgn(q, p.types) for q in p.trees[i])
    return out
