//! The text form of a pack (docs/TEXT-FORM.md): what an author writes, in lines. What keel derives from it is derived here as
//! keel does (root types, widths, scalings, lengths, the lookup of SPN names), unless the text states it; so any pack can be
//! written, a faulty one too. An error is one of the text and names its line; to refuse a pack is the library's.

mod line;
mod write;

use self::line::{Answer, Line, lossy, unknown};
pub use self::write::from_pack;
use crate::encode::{encode, number};
use crate::rules::first_carriers;
use crate::value::*;

/// The lookup that is made from the SPNs.
const SPN_LOOKUP: &[u8] = b"J1939_SPN";
const TREES: [&str; 3] = ["nmea2000", "j1939", "quick"];
/// A reference by the kind of its lookup.
const REFERENCES: [&str; 4] = ["lookup", "lookupIndirect", "lookupBits", "lookupFieldtype"];

/// What a text says.
pub struct Said {
    pub pack: Pack,
    pub version: u32,
    /// bytes after the last tree
    pub tail: Text,
    /// what an author may have meant otherwise, with its line
    pub notes: Vec<String>,
}

impl Said {
    pub fn bytes(&self) -> Vec<u8> {
        // a pack is encoded with version 1, which is one byte
        [&number(self.version.into()), &encode(&self.pack).bytes[1..], &self.tail].concat()
    }
}

/// The pack's bytes, or what is wrong and in which line.
pub fn to_bytes(source: &str) -> Result<Vec<u8>, String> {
    read(source.as_bytes()).map(|said| said.bytes())
}

pub fn to_pack(source: &str) -> Result<Pack, String> {
    read(source.as_bytes()).map(|said| said.pack)
}

pub fn read(source: &[u8]) -> Result<Said, String> {
    let mut author = Author { version: 1, ..Author::default() };
    let source = str::from_utf8(source).map_err(|error| {
        let before = &source[..error.valid_up_to()];
        let line = before.iter().filter(|byte| **byte == b'\n').count() + 1;
        format!("line {line}: bytes that are not UTF-8 are written as \\xNN in quotes")
    })?;
    for (number, line) in source.lines().enumerate() {
        author.number = number + 1;
        author.line(line).map_err(|error| format!("line {}: {error}", number + 1))?;
    }
    Ok(author.finish())
}

/// What a type hands down that the pack does not say of it.
#[derive(Clone, Default)]
struct Inherited {
    unit: Option<Text>,
    offset: Float,
}

/// A PGN, with what was stated of it that else is derived.
#[derive(Default)]
struct Draft {
    pgn: Pgn,
    line: usize,
    length_stated: bool,
    /// of each field
    continuation_stated: Vec<bool>,
}

#[derive(Default)]
struct Author {
    version: u32,
    fieldtypes: Vec<FieldType>,
    inherited: Vec<Inherited>,
    lookups: Vec<Lookup>,
    lookups_as_written: bool,
    trees: [Vec<Draft>; 3],
    tail: Text,
    tree: usize,
    /// of the line
    number: usize,
}

impl Author {
    fn line(&mut self, line: &str) -> Answer<()> {
        let mut line = Line::of(line)?;
        match line.option().as_deref() {
            None => {}
            Some("version") => self.version = line.number()?,
            Some("lookupsAsWritten") => self.lookups_as_written = true,
            Some("type") => self.fieldtype(&mut line)?,
            Some("lookup") => self.lookup(&mut line)?,
            Some("value") => self.value(&mut line)?,
            Some("tree") => self.tree = line.one_of(&[0, 1, 2], |tree| TREES[tree])?,
            Some("pgn") => self.pgn(&mut line)?,
            Some("set") => self.set(&mut line)?,
            Some("field") => self.field(&mut line)?,
            Some("tail") => self.tail.extend(line.text()?),
            Some(other) => return unknown(other),
        }
        line.end()
    }

    fn type_index(&self, name: &[u8]) -> Answer<usize> {
        let found = self.fieldtypes.iter().position(|ft| ft.name == name);
        found.ok_or_else(|| format!("there is no type {} so far", lossy(name)))
    }

    /// A type takes from its base what it does not say itself.
    fn fieldtype(&mut self, line: &mut Line) -> Answer<()> {
        let name = line.text()?;
        let mut ft = FieldType { root_name: name.clone(), name, ..FieldType::default() };
        let mut own = Inherited::default();
        while let Some(option) = line.option() {
            match option.as_str() {
                "base" => {
                    let base = self.type_index(&line.text()?)?;
                    own = self.inherited[base].clone();
                    ft = FieldType { name: ft.name, base: true, ..self.fieldtypes[base].clone() };
                }
                "hasBase" => ft.base = true,
                "root" => ft.root_name = line.text()?,
                "prints" => ft.print_function = true,
                "signed" => ft.signed = true,
                "size" => ft.size = line.number()?,
                "resolution" => ft.resolution = line.float()?,
                "offset" => own.offset = line.float()?,
                "unit" => own.unit = Some(line.text()?),
                other => return unknown(other),
            }
        }
        self.fieldtypes.push(ft);
        self.inherited.push(own);
        Ok(())
    }

    fn lookup(&mut self, line: &mut Line) -> Answer<()> {
        let name = line.text()?;
        let kind = line.one_of(&Kind::ALL, Kind::name)?;
        self.lookups.push(Lookup { name, kind, bits: line.number()?, entries: Vec::new() });
        Ok(())
    }

    fn value(&mut self, line: &mut Line) -> Answer<()> {
        let lookup = self.lookups.last_mut().ok_or("a value before any lookup")?;
        let mut entry = Entry::default();
        if lookup.kind == Kind::Triplet {
            entry.first = line.number()?;
        }
        entry.value = line.number()?;
        entry.name = line.text()?;
        if lookup.kind == Kind::Fieldtype {
            entry.fieldtype = line.text()?;
        }
        match line.option().as_deref() {
            None => {}
            Some("lookup") if lookup.kind == Kind::Fieldtype => entry.nested = Some(line.text()?),
            Some(other) => return unknown(other),
        }
        lookup.entries.push(entry);
        Ok(())
    }

    fn pgn(&mut self, line: &mut Line) -> Answer<()> {
        let mut draft = Draft { line: self.number, ..Draft::default() };
        let pgn = &mut draft.pgn;
        (pgn.pgn, pgn.id) = (line.number()?, line.text()?);
        pgn.packet = line.one_of(&PacketType::ALL, PacketType::name)?;
        while let Some(option) = line.option() {
            match option.as_str() {
                "fallback" => pgn.fallback = true,
                "missingCompanyFields" => pgn.missing_company_fields = true,
                "length" => {
                    draft.length_stated = true;
                    pgn.length = line.number()?;
                }
                "variable" => pgn.variable = true,
                "minLength" => pgn.min_length = Some(line.number()?),
                other => return unknown(other),
            }
        }
        self.trees[self.tree].push(draft);
        Ok(())
    }

    fn last_pgn(&mut self) -> Answer<&mut Draft> {
        self.trees[self.tree].last_mut().ok_or("no PGN so far in this tree".into())
    }

    fn set(&mut self, line: &mut Line) -> Answer<()> {
        let which = line.one_of(&[0, 1], |set| ["1", "2"][set])?;
        let mut set = Repeating::default();
        while let Some(option) = line.option() {
            match option.as_str() {
                "start" => set.start = line.number()?,
                "count" => set.count = line.number()?,
                "countField" => set.count_field = Some(line.number()?),
                "nested" => set.nested = true,
                other => return unknown(other),
            }
        }
        self.last_pgn()?.pgn.sets[which] = Some(set);
        Ok(())
    }

    /// What a field of this type has where its line says nothing.
    fn field_of_type(&self, ft: usize) -> Field {
        Field {
            ft: ft as u32,
            res_bits: self.fieldtypes[ft].size,
            res_resolution: default_resolution(&self.fieldtypes[ft]),
            res_offset: self.inherited[ft].offset,
            res_unit: self.inherited[ft].unit.clone(),
            ..Field::default()
        }
    }

    fn field(&mut self, line: &mut Line) -> Answer<()> {
        let (id, name, type_) = (line.text()?, line.text()?, line.text()?);
        let mut option = line.option();
        // it comes first, because what the others leave unsaid hangs on it
        let unsaid = if option.as_deref() == Some("typeIndex") {
            let ft = line.number()?;
            option = line.option();
            Field { ft, ..Field::default() }
        } else {
            self.field_of_type(self.type_index(&type_)?)
        };
        let mut field = Field { id, name, type_, ..unsaid };
        let mut continuation_stated = false;
        while let Some(name) = option {
            match name.as_str() {
                "bits" => {
                    field.bits_given = true;
                    field.res_bits = line.number()?;
                }
                "resBits" => field.res_bits = line.number()?,
                "resolution" => {
                    field.res_resolution = line.float()?;
                    field.resolution = Some(field.res_resolution);
                }
                "resResolution" => field.res_resolution = line.float()?,
                "offset" => {
                    field.res_offset = line.float()?;
                    field.offset = Some(field.res_offset);
                }
                "resOffset" => field.res_offset = line.float()?,
                "unit" => {
                    field.unit_given = true;
                    field.res_unit = Some(line.text()?);
                }
                "unitGiven" => field.unit_given = true,
                "resUnit" => field.res_unit = Some(line.text()?),
                "noUnit" => field.res_unit = None,
                "spn" => field.spn = Some(line.number()?),
                "continues" => field.continues = Some(line.text()?),
                "match" => field.match_ = Some(line.text()?),
                "allowLookupWidthMismatch" => field.allow_lookup_width_mismatch = true,
                "proprietary" => field.proprietary = true,
                "specialValues" => field.special_values = Some(line.number()?),
                "bitLengthField" => field.bit_length_field = Some(line.text()?),
                "trailingZeroIsDigit" => field.trailing_zero = Some(line.text()?),
                "dynamicFieldLength" => field.dynamic_field_length = true,
                "overhead" => field.overhead = true,
                "continuation" => {
                    continuation_stated = true;
                    field.continuation = Some(line.number()?);
                }
                "noContinuation" => {
                    continuation_stated = true;
                    field.continuation = None;
                }
                other => match REFERENCES.iter().position(|name| *name == other) {
                    Some(kind) => field.reference = Some((Kind::ALL[kind], line.text()?)),
                    None => return unknown(other),
                },
            }
            option = line.option();
        }
        let draft = self.last_pgn()?;
        draft.pgn.fields.push(field);
        draft.continuation_stated.push(continuation_stated);
        Ok(())
    }

    fn finish(mut self) -> Said {
        let mut notes = Vec::new();
        for draft in self.trees.iter_mut().flatten() {
            place_continuations(draft);
            if !draft.length_stated {
                let note = measure(&mut draft.pgn);
                notes.extend(note.map(|note| format!("line {}: {note}", draft.line)));
            }
        }
        let trees = self.trees.map(|tree| tree.into_iter().map(|draft| draft.pgn).collect());
        let mut pack = Pack { fieldtypes: self.fieldtypes, lookups: self.lookups, trees };
        if !self.lookups_as_written {
            if !pack.lookups.iter().any(|lookup| lookup.name == SPN_LOOKUP) {
                pack.lookups.extend(spn_lookup(&pack.trees[1]));
            }
            pack.lookups.sort_by(|a, b| a.name.cmp(&b.name));
        }
        Said { pack, version: self.version, tail: self.tail, notes }
    }
}

/// The type's, else 1 for all but texts and values of no fixed meaning.
fn default_resolution(ft: &FieldType) -> Float {
    let none: [&[u8]; 5] = [b"STRING_FIX", b"STRING_LZ", b"STRING_LAU", b"VARIABLE", b"DYNAMIC_FIELD_VALUE"];
    if ft.resolution.get() != 0.0 || none.contains(&ft.root_name.as_slice()) { ft.resolution } else { Float::of(1.0) }
}

/// A continued field gets the width of the field that continues it, where both lie in one stretch of fixed widths.
fn place_continuations(Draft { pgn, continuation_stated, .. }: &mut Draft) {
    let fixed = pgn.fields.iter().take_while(|field| field.res_bits != 0).count();
    for i in 0..pgn.fields.len().min(fixed + 1) {
        let Some(id) = pgn.fields[i].continues.clone() else { continue };
        let width = pgn.fields[i].res_bits;
        if let Some(low) = pgn.fields[..i].iter().position(|field| field.id == id)
            && !continuation_stated[low]
        {
            pgn.fields[low].continuation.get_or_insert(width);
        }
    }
}

/// The length of the part that does not repeat, and whether there is any other; a note where keel would give none.
fn measure(pgn: &mut Pgn) -> Option<String> {
    let [one, two] = &pgn.sets;
    let repeated = match one {
        Some(one) if one.count > 0 => {
            u64::from(one.count) + two.as_ref().filter(|two| !two.nested).map_or(0, |two| two.count.into())
        }
        _ => 0,
    };
    let counted = (pgn.fields.len() as u64).checked_sub(repeated);
    let counted_fields = &pgn.fields[..counted.unwrap_or(0) as usize];
    let bits: u64 = counted_fields.iter().map(|field| u64::from(field.res_bits)).sum();
    pgn.variable |= repeated > 0 || counted_fields.iter().any(|field| field.res_bits == 0);
    pgn.length = u32::try_from(bits.div_ceil(8)).unwrap_or(u32::MAX);
    let length = pgn.length;
    if counted.is_none() {
        Some(format!("the sets have more fields than the PGN, its length is taken as {length}"))
    } else if !bits.is_multiple_of(8) || bits > u32::MAX.into() {
        Some(format!("{bits} bits are no length in bytes, it is taken as {length}"))
    } else {
        None
    }
}

/// J1939_SPN, which names each SPN by the first field that carries it.
fn spn_lookup(pgns: &[Pgn]) -> Option<Lookup> {
    let entries: Vec<Entry> = first_carriers(pgns)
        .into_iter()
        .map(|(spn, (item, i))| Entry {
            value: spn.into(),
            name: pgns[item].fields[i].name.clone(),
            ..Entry::default()
        })
        .collect();
    (!entries.is_empty()).then(|| Lookup { name: SPN_LOOKUP.to_vec(), kind: Kind::Pair, bits: 19, entries })
}
