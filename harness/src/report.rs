//! What the report program prints for a pack (document 01, "Findings"), and the paper's worked example.

use crate::calls;
use crate::finding::Finding;
use crate::reader::Refusal;
use crate::value::*;

const LONGEST: usize = 65_536;
const NUMBERS: usize = 16_384;
const TEXT: usize = 65_536;

pub fn report(pack: &[u8]) -> Vec<u8> {
    if pack.len() > LONGEST {
        return b"too long\n".to_vec();
    }
    let mut out = Vec::new();
    if let Err(refusal) = print(pack, &mut out) {
        out.extend(format!("refused {} {}\n", refusal.number, refusal.detail).bytes());
    }
    out
}

fn print(pack: &[u8], out: &mut Vec<u8>) -> Result<(), Refusal> {
    let mut work = [0; NUMBERS];
    let mut buffer = [0; NUMBERS];
    let [count, errors] = calls::check(pack, &mut work, &mut buffer)?;
    let findings = buffer.as_chunks().0[..count as usize].iter().map(|numbers| Finding::from_numbers(*numbers));
    let mut text = vec![0; TEXT];
    for finding in findings {
        let [length] = calls::place_text(pack, &mut work, finding.place, finding.tree, finding.item, &mut text)?;
        let severity = if finding.is_error() { "error" } else { "warning" };
        out.extend(format!("R{:02} {severity} ", finding.rule).bytes());
        out.extend(&text[..length as usize]);
        out.extend(format!(" {} {} {}\n", finding.cause, finding.part, finding.other).bytes());
    }
    out.extend(format!("findings {count} errors {errors}\n").bytes());
    Ok(())
}

/// "One root field type NUMBER with a print function, no lookups, and one tree 0 PGN 127488, id a, Single, length 8,
/// set 1 start 1 count 2, one NUMBER field r named Reserved, 64 bits, all else absent".
pub fn worked_example() -> Pack {
    let number = FieldType {
        name: b"NUMBER".to_vec(),
        print_function: true,
        root_name: b"NUMBER".to_vec(),
        ..FieldType::default()
    };
    let field = Field {
        id: b"r".to_vec(),
        name: b"Reserved".to_vec(),
        type_: b"NUMBER".to_vec(),
        res_bits: 64,
        ..Field::default()
    };
    let pgn = Pgn {
        pgn: 127488,
        id: b"a".to_vec(),
        length: 8,
        sets: [Some(Repeating { count: 2, start: 1, ..Repeating::default() }), None],
        fields: vec![field],
        ..Pgn::default()
    };
    Pack { fieldtypes: vec![number], lookups: Vec::new(), trees: [vec![pgn], Vec::new(), Vec::new()] }
}
