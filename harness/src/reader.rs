//! An independent reader of packs, from document 01 alone: the value, the records' offsets, or the refusal.

use crate::value::*;

/// The largest pack that is read.
pub const LIMIT: usize = 1_048_576;

/// 01's number and detail.
#[derive(Clone, Copy, PartialEq, Eq, Debug)]
pub struct Refusal {
    pub number: u32,
    pub detail: u64,
}

/// A list of records: how many, and the place of the first in the work list.
#[derive(Clone, Copy, PartialEq, Eq, Debug, Default)]
pub struct Section {
    pub count: u32,
    pub begins: u32,
}

#[derive(Debug)]
pub struct Loaded {
    pub pack: Pack,
    /// the offset of each record (field type, lookup, lookup entry, PGN, field) as they stand in the pack
    pub records: Vec<u32>,
    /// field types, lookups, trees 0 to 2
    pub sections: [Section; 5],
}

pub fn read(bytes: &[u8]) -> Result<Loaded, Refusal> {
    if bytes.len() > LIMIT {
        return Err(Refusal { number: 9, detail: 0 });
    }
    let mut reader = Reader { bytes, at: 0, records: Vec::new(), fieldtypes: 0 };
    let (pack, sections) = reader.pack()?;
    Ok(Loaded { pack, records: reader.records, sections })
}

type Answer<T> = Result<T, Refusal>;

fn refused<T>(number: u32, at: usize) -> Answer<T> {
    Err(Refusal { number, detail: at as u64 })
}

struct Reader<'a> {
    bytes: &'a [u8],
    at: usize,
    records: Vec<u32>,
    fieldtypes: u32,
}

impl Reader<'_> {
    /// A number below 2^width, with the offset of its item.
    fn number(&mut self, width: u32) -> Answer<(u64, usize)> {
        let at = self.at;
        let Some(last) = self.bytes[at..].iter().position(|byte| byte & 0x80 == 0) else {
            return refused(1, at);
        };
        let groups = &self.bytes[at..=at + last];
        // With a last group that is not zero, more than ten groups are 2^70 or more.
        if last > 0 && groups[last] == 0 || groups.len() > 10 {
            return refused(2, at);
        }
        let value = groups.iter().rev().fold(0u128, |value, group| value << 7 | u128::from(group & 0x7f));
        if value >> width != 0 {
            return refused(2, at);
        }
        self.at += groups.len();
        Ok((value as u64, at))
    }

    fn u32_at(&mut self) -> Answer<(u32, usize)> {
        self.number(32).map(|(value, at)| (value as u32, at))
    }

    fn u32(&mut self) -> Answer<u32> {
        Ok(self.u32_at()?.0)
    }

    fn u64(&mut self) -> Answer<u64> {
        Ok(self.number(64)?.0)
    }

    /// A mark, code or flags item.
    fn code(&mut self, largest: u32) -> Answer<u32> {
        let (value, at) = self.u32_at()?;
        if value > largest { refused(4, at) } else { Ok(value) }
    }

    fn mark(&mut self) -> Answer<bool> {
        Ok(self.code(1)? == 1)
    }

    fn text_at(&mut self) -> Answer<(Text, usize)> {
        let (length, at) = self.u32_at()?;
        let rest = &self.bytes[self.at..];
        if length as usize > rest.len() {
            return refused(1, at);
        }
        let text = rest[..length as usize].to_vec();
        self.at += text.len();
        Ok((text, at))
    }

    fn text(&mut self) -> Answer<Text> {
        Ok(self.text_at()?.0)
    }

    fn float(&mut self) -> Answer<Float> {
        let Some(bytes) = self.bytes[self.at..].first_chunk::<8>() else {
            return refused(1, self.at);
        };
        self.at += 8;
        Ok(Float(u64::from_le_bytes(*bytes)))
    }

    fn optional<T>(&mut self, item: impl FnOnce(&mut Self) -> Answer<T>) -> Answer<Option<T>> {
        if self.mark()? { item(self).map(Some) } else { Ok(None) }
    }

    /// A count, then its records. The count may lie: no room is made for it before the records are seen.
    fn list<T>(&mut self, mut record: impl FnMut(&mut Self) -> Answer<T>) -> Answer<Vec<T>> {
        let count = self.u32()?;
        let mut records = Vec::new();
        for _ in 0..count {
            let at = self.at as u32;
            self.records.push(at);
            records.push(record(self)?);
        }
        Ok(records)
    }

    fn section<T>(&mut self, record: impl FnMut(&mut Self) -> Answer<T>) -> Answer<(Vec<T>, Section)> {
        let begins = self.records.len() as u32;
        let records = self.list(record)?;
        let count = records.len() as u32;
        Ok((records, Section { count, begins }))
    }

    fn pack(&mut self) -> Answer<(Pack, [Section; 5])> {
        let (version, at) = self.u32_at()?;
        if version != 1 {
            return refused(3, at);
        }
        let (fieldtypes, s0) = self.section(Self::fieldtype)?;
        self.fieldtypes = s0.count;
        let mut previous: Option<Text> = None;
        let (lookups, s1) = self.section(|reader| {
            let lookup = reader.lookup(previous.as_ref())?;
            previous = Some(lookup.name.clone());
            Ok(lookup)
        })?;
        let (t0, s2) = self.section(Self::pgn)?;
        let (t1, s3) = self.section(Self::pgn)?;
        let (t2, s4) = self.section(Self::pgn)?;
        if self.at != self.bytes.len() {
            return refused(8, self.at);
        }
        Ok((Pack { fieldtypes, lookups, trees: [t0, t1, t2] }, [s0, s1, s2, s3, s4]))
    }

    fn fieldtype(&mut self) -> Answer<FieldType> {
        let name = self.text()?;
        let flags = self.code(7)?;
        Ok(FieldType {
            name,
            base: flags & 1 != 0,
            print_function: flags & 2 != 0,
            signed: flags & 4 != 0,
            size: self.u32()?,
            resolution: self.float()?,
            root_name: self.text()?,
        })
    }

    fn lookup(&mut self, previous: Option<&Text>) -> Answer<Lookup> {
        let (name, at) = self.text_at()?;
        if previous.is_some_and(|previous| name <= *previous) {
            return refused(5, at);
        }
        let kind = Kind::ALL[self.code(3)? as usize];
        let bits = self.u32()?;
        let entries = self.list(|reader| reader.entry(kind))?;
        Ok(Lookup { name, kind, bits, entries })
    }

    fn entry(&mut self, kind: Kind) -> Answer<Entry> {
        let first = if kind == Kind::Triplet { self.u64()? } else { 0 };
        let value = self.u64()?;
        let name = self.text()?;
        let (fieldtype, nested) = match kind {
            Kind::Fieldtype => (self.text()?, self.optional(Self::text)?),
            _ => (Text::new(), None),
        };
        Ok(Entry { first, value, name, fieldtype, nested })
    }

    fn pgn(&mut self) -> Answer<Pgn> {
        let pgn = self.u32()?;
        let id = self.text()?;
        let packet = PacketType::ALL[self.code(3)? as usize];
        let flags = self.code(7)?;
        let length = self.u32()?;
        let min_length = self.optional(|reader| {
            let (length, at) = reader.u32_at()?;
            if length.checked_mul(8).is_none() { refused(7, at) } else { Ok(length) }
        })?;
        let sets = [self.optional(Self::set)?, self.optional(Self::set)?];
        let mut bits = 0u32;
        let fields = self.list(|reader| reader.field(&mut bits))?;
        Ok(Pgn {
            pgn,
            id,
            packet,
            fallback: flags & 1 != 0,
            variable: flags & 2 != 0,
            missing_company_fields: flags & 4 != 0,
            length,
            min_length,
            sets,
            fields,
        })
    }

    fn set(&mut self) -> Answer<Repeating> {
        let count = self.u32()?;
        let (start, at) = self.u32_at()?;
        if start.checked_add(count).is_none() {
            return refused(7, at);
        }
        Ok(Repeating { count, start, count_field: self.optional(Self::u32)?, nested: self.mark()? })
    }

    /// `bits` is the sum of the PGN's `res_bits` so far.
    fn field(&mut self, bits: &mut u32) -> Answer<Field> {
        let id = self.text()?;
        let name = self.text()?;
        let type_ = self.text()?;
        let (ft, at) = self.u32_at()?;
        if ft >= self.fieldtypes {
            return refused(6, at);
        }
        let flags = self.code(63)?;
        let (res_bits, at) = self.u32_at()?;
        match bits.checked_add(res_bits) {
            Some(sum) => *bits = sum,
            None => return refused(7, at),
        }
        Ok(Field {
            id,
            name,
            type_,
            ft,
            bits_given: flags & 1 != 0,
            unit_given: flags & 2 != 0,
            proprietary: flags & 4 != 0,
            allow_lookup_width_mismatch: flags & 8 != 0,
            dynamic_field_length: flags & 16 != 0,
            overhead: flags & 32 != 0,
            res_bits,
            res_resolution: self.float()?,
            res_offset: self.float()?,
            res_unit: self.optional(Self::text)?,
            resolution: self.optional(Self::float)?,
            offset: self.optional(Self::float)?,
            spn: self.optional(Self::u32)?,
            continues: self.optional(Self::text)?,
            match_: self.optional(Self::text)?,
            reference: self.optional(|reader| Ok((Kind::ALL[reader.code(3)? as usize], reader.text()?)))?,
            special_values: self.optional(Self::u32)?,
            bit_length_field: self.optional(Self::text)?,
            trailing_zero: self.optional(Self::text)?,
            continuation: self.optional(|reader| {
                let (width, at) = reader.u32_at()?;
                if res_bits.checked_add(width).is_none() { refused(7, at) } else { Ok(width) }
            })?,
        })
    }
}
