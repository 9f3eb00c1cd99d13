//! Packs made to be slow: one shape for each loop that could grow faster than the pack. A shape is a pack of so many of
//! something. The walk goes over the last PGN, with one reading over and over.

use super::call::Case;
use super::packs::last;
use crate::encode::encode;
use crate::value::*;

pub struct Shape {
    pub name: &'static str,
    /// a pack of so many of what the shape is about
    pub make: fn(usize) -> Pack,
    pub reading: u64,
}

const fn shape(name: &'static str, make: fn(usize) -> Pack) -> Shape {
    Shape { name, make, reading: 0 }
}

pub const SHAPES: &[Shape] = &[
    // PGNs: groups of one number (R20), ids (R21)
    shape("pgns-distinct", |n| of_pgns((0..n).map(|i| pgn(i, vec![matched("1")])))),
    shape("pgns-one-number", |n| of_pgns((0..n).map(|i| variant(i, vec![matched(&i.to_string())])))),
    shape("pgns-equal-matches", |n| of_pgns((0..n).map(|i| variant(i, vec![matched("1")])))),
    shape("pgns-long-matches", |n| of_pgns((0..n).map(|i| variant(i, vec![matched(&format!("{i:0200}"))])))),
    shape("pgns-matchless", |n| {
        let fields = |i: usize| if i.is_multiple_of(2) { plain_fields(0..2) } else { vec![matched(&i.to_string())] };
        of_pgns((0..n).map(|i| variant(i, fields(i))))
    }),
    shape("pgns-empty", |n| of_pgns((0..n).map(|i| pgn(i, vec![])))),
    shape("pgns-empty-one-number", |n| of_pgns((0..n).map(|i| variant(i, vec![])))),
    // lookups, and references to them (R08, R22)
    shape("lookups-unused", |n| Pack { lookups: lookups(n), ..Pack::default() }),
    shape("lookups-each-used", |n| referring(lookups(n), n, name)),
    shape("lookups-last-used", |n| referring(lookups(4 * n + 1), n, |_| name(4 * n))),
    shape("lookups-missing", |n| referring(lookups(4 * n), n, |_| b"~".to_vec())),
    // entries of one lookup (R08, R24), and matches by their names (R13)
    shape("entries-distinct", |n| of_entries(1, Kind::Pair, (0..n).map(|i| entry(i, &name(i))))),
    shape("entries-equal", |n| of_entries(1, Kind::Pair, (0..n).map(|i| entry(i, b"x")))),
    shape("triplets-distinct", |n| of_entries(1, Kind::Triplet, (0..n).map(|i| triplet(i, i)))),
    shape("triplets-equal", |n| of_entries(1, Kind::Triplet, (0..n).map(|i| triplet(0, i)))),
    shape("entries-referred-to", |n| of_entries(n, Kind::Pair, (0..8 * n).map(|i| entry(i, &name(i))))),
    shape("matches-last-entry", |n| {
        let mut pack = of_entries(n, Kind::Pair, (0..=8 * n).map(|i| entry(i, &name(i))));
        let fields = pack.trees.iter_mut().flatten().flat_map(|pgn| &mut pgn.fields);
        fields.for_each(|field| field.match_ = Some(name(8 * n)));
        pack
    }),
    // SPNs (R24, R42)
    shape("spns-distinct", |n| of_spns((0..n).map(|i| carrier(i, &name(i))))),
    shape("spns-one", |n| of_spns((0..n).map(|_| carrier(0, b"x")))),
    shape("spns-one-name", |n| of_spns((0..n).map(|i| carrier(i, b"x")))),
    // the lower PGNs name each SPN; the last has no other name than the one that every SPN has in the higher
    shape("spns-named-elsewhere", |n| {
        of_spns((0..n).map(|i| carrier(i, &name(i))).chain((0..=n).map(|i| carrier(i, b"x"))))
    }),
    // the fields of one PGN (R15, R21, R43, R44, held, walk)
    shape("fields-ids", |n| of_fields(plain_fields(0..n))),
    shape("continues-first", |n| {
        let low = Field { continuation: Some(BITS), ..plain(0) };
        let high = (1..=n).map(|i| Field { continues: Some(name(0)), ..plain(i) });
        of_fields([low].into_iter().chain(high).collect())
    }),
    shape("continues-last", |n| users_behind(n, |field, id| Field { continues: Some(id), ..field })),
    shape("bit-length-behind", |n| users_behind(n, variable_binary)),
    shape("bit-length-ahead", |n| {
        of_fields((0..n).map(|i| variable_binary(plain(i), name(n))).chain([plain(n)]).collect())
    }),
    shape("trailing-zero-behind", |n| {
        users_behind(n, |field, id| Field { type_: b"DECIMAL".to_vec(), ft: DECIMAL, trailing_zero: Some(id), ..field })
    }),
    shape("dynamic-early-source", |n| of_fields([vec![source(0)], dynamic_values(1..n + 1)].concat())),
    shape("dynamic-late-source", |n| {
        of_fields([plain_fields(0..n), vec![source(n)], dynamic_values(n + 1..2 * n)].concat())
    }),
    // walks: an endless set at the end of many fields, most of which are passed over
    shape("late-targets", |n| {
        let id = Some(name(n + 1));
        let user = |field| Field {
            bit_length_field: id.clone(),
            continues: id.clone(),
            trailing_zero: id.clone(),
            ft: DYNAMIC_FIELD_VALUE,
            ..field
        };
        late(n, vec![], user)
    }),
    shape("late-lookup", |n| {
        late(n, lookups(8 * n + 1), |field| Field { reference: Some((Kind::Pair, name(8 * n))), ..field })
    }),
    shape("late-match", |n| {
        let lookup = lookup(Kind::Pair, (0..=8 * n).map(|i| entry(i, &name(i))));
        let user =
            |field| Field { reference: Some((Kind::Pair, lookup.name.clone())), match_: Some(name(8 * n)), ..field };
        late(n, vec![lookup.clone()], user)
    }),
    // walks: fieldtype lookups on the fields of an endless set
    shape("fieldtype-last-type", |n| {
        let mut pack = fieldtypes(8, (0..2 * n).map(|_| typed(0, &name(n))));
        let more = |i| FieldType { name: name(i), base: true, ..FieldType::default() };
        pack.fieldtypes.extend((0..=n).map(more));
        pack
    }),
    shape("fieldtype-last-nested", |n| {
        let mut pack = fieldtypes(8, (0..n).map(|_| Entry { nested: Some(name(n)), ..typed(0, b"NUMBER") }));
        pack.lookups.extend(lookups(n + 1));
        pack
    }),
    shape("fieldtype-met", |n| fieldtypes(8, (0..n).map(|_| typed(0, b"NUMBER")))),
    shape("fieldtype-unmet", |n| fieldtypes(8, (0..n).map(|i| typed(i + 1, b"NUMBER")))),
    shape("fieldtype-five-missing", |n| {
        fieldtypes(8, (0..n + 5).map(|i| typed(i + 1, if i < n { b"NUMBER" } else { b"~" })))
    }),
    shape("fieldtype-all-missing", |n| fieldtypes(8, (0..n).map(|i| typed(i + 1, b"~")))),
    shape("fieldtype-many-fields", |n| fieldtypes(n, (0..4 * n).map(|_| typed(0, b"NUMBER")))),
    Shape {
        name: "nested-sets-fieldtype",
        make: |n| {
            let mut pack = fieldtypes(8, (0..n).map(|_| typed(1, b"NUMBER")));
            let inner = Repeating { count: 3, start: 4, count_field: Some(2), nested: true };
            pack.trees[0][0].sets[1] = Some(inner);
            pack
        },
        reading: 1,
    },
];

impl Shape {
    pub fn named(name: &str) -> Option<&'static Shape> {
        SHAPES.iter().find(|shape| shape.name == name)
    }

    /// The pack of nearly that size, at most so many bytes, and so many readings.
    pub fn case(&self, size: usize, readings: usize) -> Case {
        let pack = self.of_size(size);
        let pgn = last(&pack);
        Case::new(pack, pgn, vec![self.reading; readings])
    }

    /// The size is nearly as the number, so few tries are enough.
    fn of_size(&self, size: usize) -> Pack {
        let (mut fits, mut over) = (0, usize::MAX);
        let mut best = (self.make)(0);
        let mut tried = size / 40;
        while fits < tried && tried < over {
            let pack = (self.make)(tried);
            let length = encode(&pack).bytes.len();
            if length > size {
                over = tried;
            } else {
                (fits, best) = (tried, pack);
                if 50 * length > 49 * size {
                    break;
                }
            }
            tried = (tried * size / length).min(over - 1).max(fits + 1);
        }
        best
    }
}

/// Four characters that rise with the number.
fn name(i: usize) -> Text {
    [3, 2, 1, 0].map(|place| b"0123456789abcdefghijklmnopqrstuvwxyz"[i / 36usize.pow(place) % 36]).to_vec()
}

const TYPES: [&str; 4] = ["NUMBER", "BINARY", "DECIMAL", "DYNAMIC_FIELD_VALUE"];
const BINARY: u32 = 1;
const DECIMAL: u32 = 2;
const DYNAMIC_FIELD_VALUE: u32 = 3;
/// Of a field and of a lookup.
const BITS: u32 = 32;

/// A pack of the field types.
fn of(lookups: Vec<Lookup>, trees: [Vec<Pgn>; 3]) -> Pack {
    let root = |name: &str| FieldType {
        name: name.into(),
        root_name: name.into(),
        print_function: true,
        ..FieldType::default()
    };
    Pack { fieldtypes: TYPES.map(root).into(), lookups, trees }
}

fn plain(i: usize) -> Field {
    Field { id: name(i), res_bits: BITS, res_resolution: Float::of(1.0), ..Field::default() }
}

fn plain_fields(indexes: std::ops::Range<usize>) -> Vec<Field> {
    indexes.map(plain).collect()
}

fn matched(text: &str) -> Field {
    Field { match_: Some(text.into()), ..plain(0) }
}

/// A PGN with a number of its own, outside the wire ranges.
fn pgn(i: usize, fields: Vec<Field>) -> Pgn {
    Pgn { pgn: 0x40000 + i as u32, id: name(i), packet: PacketType::Fast, fields, ..Pgn::default() }
}

/// A PGN of the one number.
fn variant(i: usize, fields: Vec<Field>) -> Pgn {
    Pgn { pgn: 0x40000, ..pgn(i, fields) }
}

fn of_pgns(pgns: impl Iterator<Item = Pgn>) -> Pack {
    of(vec![], [pgns.collect(), vec![], vec![]])
}

fn of_fields(fields: Vec<Field>) -> Pack {
    of_pgns(std::iter::once(pgn(0, fields)))
}

/// PGNs of 32 fields, so that it is not the fields of one PGN that are many.
fn by_32(fields: impl Iterator<Item = Field>) -> Vec<Pgn> {
    let fields: Vec<Field> = fields.collect();
    fields.chunks(32).enumerate().map(|(i, fields)| pgn(i, fields.to_vec())).collect()
}

fn lookup(kind: Kind, entries: impl Iterator<Item = Entry>) -> Lookup {
    Lookup { name: vec![], kind, bits: BITS, entries: entries.collect() }
}

/// Lookups without entries.
fn lookups(n: usize) -> Vec<Lookup> {
    (0..n).map(|i| Lookup { name: name(i), bits: BITS, ..Lookup::default() }).collect()
}

/// So many fields with references of the first lookup's kind.
fn referring(lookups: Vec<Lookup>, n: usize, name: impl Fn(usize) -> Text) -> Pack {
    let kind = lookups.first().map_or(Kind::Pair, |lookup| lookup.kind);
    let fields = (0..n).map(|i| Field { reference: Some((kind, name(i))), ..plain(i) });
    let pgns = by_32(fields);
    of(lookups, [pgns, vec![], vec![]])
}

fn entry(value: usize, name: &[u8]) -> Entry {
    Entry { value: value as u64, name: name.to_vec(), ..Entry::default() }
}

fn triplet(first: usize, value: usize) -> Entry {
    Entry { first: first as u64, ..entry(value, b"x") }
}

/// So many fields that refer to a lookup of these entries.
fn of_entries(n: usize, kind: Kind, entries: impl Iterator<Item = Entry>) -> Pack {
    referring(vec![lookup(kind, entries)], n, |_| vec![])
}

fn carrier(spn: usize, name: &[u8]) -> Field {
    Field { name: name.to_vec(), spn: Some(spn as u32), ..plain(spn) }
}

fn of_spns(fields: impl Iterator<Item = Field>) -> Pack {
    of(vec![], [vec![], by_32(fields), vec![]])
}

/// As many plain fields as fields that use the last of those.
fn users_behind(n: usize, uses: impl Fn(Field, Text) -> Field) -> Pack {
    let users = plain_fields(n..2 * n).into_iter().map(|field| uses(field, name(n.max(1) - 1)));
    of_fields(plain_fields(0..n).into_iter().chain(users).collect())
}

fn variable_binary(field: Field, target: Text) -> Field {
    Field { type_: b"BINARY".to_vec(), ft: BINARY, res_bits: 0, bit_length_field: Some(target), ..field }
}

/// A length source.
fn source(i: usize) -> Field {
    Field { dynamic_field_length: true, ..plain(i) }
}

fn dynamic_values(indexes: std::ops::Range<usize>) -> Vec<Field> {
    indexes.map(|i| Field { ft: DYNAMIC_FIELD_VALUE, ..plain(i) }).collect()
}

/// A PGN of a count that is read as 0, so many fields in the set that it counts, a length source, and 8 users in an endless
/// set.
fn late(n: usize, lookups: Vec<Lookup>, user: impl Fn(Field) -> Field) -> Pack {
    let users = plain_fields(n + 2..n + 10).into_iter().map(user);
    let fields = plain_fields(0..n + 1).into_iter().chain([source(n + 1)]).chain(users).collect();
    let skipped = Repeating { count: n as u32, start: 2, count_field: Some(1), nested: false };
    let endless = Repeating { count: 8, start: n as u32 + 3, count_field: None, nested: false };
    of(lookups, [vec![Pgn { sets: [Some(skipped), Some(endless)], ..pgn(0, fields) }], vec![], vec![]])
}

fn typed(value: usize, fieldtype: &[u8]) -> Entry {
    Entry { fieldtype: fieldtype.to_vec(), ..entry(value, b"") }
}

/// An endless set of so many fields with a fieldtype lookup of these entries.
fn fieldtypes(n: usize, entries: impl Iterator<Item = Entry>) -> Pack {
    let reference = Some((Kind::Fieldtype, vec![]));
    let fields = plain_fields(0..n).into_iter().map(|field| Field { reference: reference.clone(), ..field }).collect();
    let endless = Repeating { count: n as u32, start: 1, count_field: None, nested: false };
    let pgn = Pgn { sets: [Some(endless), None], ..pgn(0, fields) };
    of(vec![lookup(Kind::Fieldtype, entries)], [vec![pgn], vec![], vec![]])
}
