//! What a silent R42 says: over packs of few SPNs and few scalings, no finding is of R42's cause 3 exactly where every two
//! carriers of one SPN are alike. The findings are the model's, the library's and the oracle's.

use super::{Compared, Failure, Growing, Run, finish, keep};
use crate::encode::encode;
use crate::finding::Finding;
use crate::generate::Generator;
use crate::spns::{Carrier, alike, carriers, every_two_alike, pairs, unlike};
use crate::table::Table;
use crate::value::{Field, Pack};
use crate::words::Words;
use crate::{library, oracle, rules};

/// For the sake of time the oracle is asked for one pack of so many.
const ORACLE_STEP: usize = 10;

/// `spns::every_two_alike` against the findings of each side that is there.
pub fn spns(seed: u64, count: usize) -> Run {
    let asked = asked();
    let mut generator = Generator::new(seed);
    let mut library = Growing::new();
    let mut table = Table::new("packs by what they show", ROWS.map(|(name, _)| name.into()));
    let mut compared = Compared::default();
    for case in 0..count {
        let pack = generator.pack_of_spns();
        let oracle_too = oracle::PRESENT && case % ORACLE_STEP == 0 && compared.takes(&pack);
        one_pack(&pack, &mut library, oracle_too).map_err(|failure| format!("case {case}: {failure}"))?;
        let shown = Shown::new(&pack);
        for (row, (_, shows)) in ROWS.iter().enumerate() {
            if shows(&shown) {
                table.hit(row);
            }
        }
    }
    println!(
        "spns: {count} packs, seed {seed}: no cause 3 exactly where every two carriers of one SPN are alike; no difference \
         (asked: {asked})"
    );
    if oracle::PRESENT {
        println!("spns, oracle: {compared}");
    }
    finish(&[&table])
}

/// The sides that are there; of one that is not, says why.
fn asked() -> String {
    let mut asked = String::from("model");
    if library::PRESENT {
        asked += ", library";
    } else {
        println!("spns: no library linked (SARWYMP_LIB names its folder), so it is not asked");
    }
    if oracle::PRESENT {
        asked += &format!(", oracle for every {ORACLE_STEP}th pack");
    } else {
        println!(
            "spns: the oracle's files were not there at build time (KEEL_SRC names their folder), so it is not asked"
        );
    }
    asked
}

fn one_pack(pack: &Pack, library: &mut Growing, oracle_too: bool) -> Run {
    let bytes = encode(pack).bytes;
    let say = |failure: Failure| format!("{failure}\n{}", keep(&bytes));
    let mut sides = vec![("model", is_silent(&rules::check(pack)))];
    if library::PRESENT {
        sides.push(("library", is_silent(&library.check(&bytes).map_err(say)?.0)));
    }
    if oracle_too {
        let violations = oracle::violations(pack).ok_or("a generated pack is not UTF-8")?;
        let of_cause_3 = |words: &Words| words.rule == "R42" && words.message.contains(" decodes as ");
        sides.push(("oracle", !violations.iter().any(of_cause_3)));
    }
    let alike = every_two_alike(pack);
    let wrong: Vec<&str> = sides.into_iter().filter(|(_, silent)| *silent != alike).map(|(side, _)| side).collect();
    if wrong.is_empty() {
        return Ok(());
    }
    let are = if alike { "every two carriers of one SPN are alike" } else { "two carriers of one SPN are unlike" };
    let has = if alike { "a" } else { "no" };
    Err(say(format!("{are}, and there is {has} cause 3 by the {}", wrong.join(", the "))))
}

fn is_silent(findings: &[Finding]) -> bool {
    findings.iter().all(|finding| (finding.rule, finding.cause) != (42, 3))
}

/// Two carriers of one SPN, with whether they have another width, resolution, offset, unit.
struct Pair<'a> {
    a: Carrier<'a>,
    b: Carrier<'a>,
    unlike: [bool; 4],
}

const WIDTH: [bool; 4] = [true, false, false, false];
const RESOLUTION: [bool; 4] = [false, true, false, false];
const OFFSET: [bool; 4] = [false, false, true, false];
const UNIT: [bool; 4] = [false, false, false, true];

/// A pack with its carriers, and every two of one SPN, in both orders.
struct Shown<'a> {
    pack: &'a Pack,
    carriers: Vec<Carrier<'a>>,
    pairs: Vec<Pair<'a>>,
}

/// A row's name, and whether a pack counts there.
type Row = (&'static str, fn(&Shown) -> bool);

const ROWS: [Row; 23] = [
    ("no pair", |shown| shown.pairs.is_empty()),
    ("alike", |shown| shown.silent() && !shown.pairs.is_empty()),
    ("unlike", |shown| !shown.silent()),
    ("width", |shown| shown.only(|pair| pair.unlike == WIDTH)),
    ("resolution", |shown| shown.only(|pair| pair.unlike == RESOLUTION && !pair.a.field.res_resolution.get().is_nan())),
    ("offset", |shown| shown.only(|pair| pair.unlike == OFFSET && !pair.a.field.res_offset.get().is_nan())),
    ("unit", |shown| shown.only(|pair| pair.unlike == UNIT)),
    ("none, empty", |shown| shown.only(|pair| pair.unlike == UNIT && no_letter(pair.a.field))),
    ("NaN resolution", |shown| shown.only(|pair| pair.unlike == RESOLUTION && same_resolution(pair))),
    ("NaN offset", |shown| shown.only(|pair| pair.unlike == OFFSET && same_offset(pair))),
    ("two NaNs", |shown| shown.only(|pair| nans(pair) == 2 && !same_resolution(pair))),
    ("NaN, number", |shown| shown.only(|pair| nans(pair) == 1)),
    ("lone NaN", |shown| shown.silent() && shown.carriers.iter().any(|carrier| has_nan(carrier.field))),
    ("-0 resolution", |shown| shown.silent() && !shown.pairs.iter().all(same_resolution)),
    ("-0 offset", |shown| shown.silent() && !shown.pairs.iter().all(same_offset)),
    ("one PGN", |shown| shown.only(|pair| pair.a.place.0 == pair.b.place.0)),
    ("two PGNs", |shown| shown.only(|pair| pair.a.place.0 != pair.b.place.0)),
    ("524287", |shown| shown.only(|pair| pair.a.spn == 524_287)),
    ("524288", |shown| shown.silent() && shown.passed_over(Some(524_288))),
    ("no SPN", |shown| shown.silent() && shown.passed_over(None)),
    ("other tree", |shown| shown.silent() && shown.other_tree_is_unlike()),
    ("first odd", |shown| shown.first_three(|a, b, c| !alike(a, b) && !alike(a, c) && alike(b, c))),
    ("third odd", |shown| shown.first_three(|a, b, c| alike(a, b) && !alike(a, c) && !alike(b, c))),
];

impl<'a> Shown<'a> {
    fn new(pack: &'a Pack) -> Self {
        let carriers = carriers(pack);
        let pairs = pairs(&carriers).map(|(a, b)| Pair { a, b, unlike: unlike(a.field, b.field) }).collect();
        Shown { pack, carriers, pairs }
    }

    fn unlike(&self) -> impl Iterator<Item = &Pair<'a>> {
        self.pairs.iter().filter(|pair| pair.unlike != [false; 4])
    }

    fn silent(&self) -> bool {
        self.unlike().next().is_none()
    }

    /// Whether some two are unlike, and every two that are unlike are so. In both orders: what `a` is, `b` is too.
    fn only(&self, so: impl Fn(&Pair) -> bool) -> bool {
        !self.silent() && self.unlike().all(so)
    }

    /// Whether two fields with an SPN that R42 does not compare, or with none, are.
    fn passed_over(&self, spn: Option<u32>) -> bool {
        let fields = self.pack.trees[1].iter().flat_map(|pgn| &pgn.fields);
        let of_spn: Vec<&Field> = fields.filter(|field| field.spn == spn).collect();
        of_spn.windows(2).any(|two| !alike(two[0], two[1]))
    }

    /// Whether a carrier and a field of another tree with its SPN are.
    fn other_tree_is_unlike(&self) -> bool {
        let mut others = [0, 2].into_iter().flat_map(|tree| &self.pack.trees[tree]).flat_map(|pgn| &pgn.fields);
        others.any(|other| {
            self.carriers.iter().any(|carrier| other.spn == Some(carrier.spn) && !alike(other, carrier.field))
        })
    }

    /// Whether the first three carriers of some SPN are so.
    fn first_three(&self, so: impl Fn(&Field, &Field, &Field) -> bool) -> bool {
        self.carriers.iter().any(|carrier| {
            let mut of_spn = self.carriers.iter().filter(|other| other.spn == carrier.spn).map(|other| other.field);
            let first = [of_spn.next(), of_spn.next(), of_spn.next()];
            matches!(first, [Some(a), Some(b), Some(c)] if so(a, b, c))
        })
    }
}

fn no_letter(field: &Field) -> bool {
    field.res_unit.as_ref().is_none_or(Vec::is_empty)
}

fn has_nan(field: &Field) -> bool {
    [field.res_resolution, field.res_offset].into_iter().any(|float| float.get().is_nan())
}

/// Of two that are unlike in the resolution alone, how many have a NaN there.
fn nans(pair: &Pair) -> usize {
    let resolutions = [pair.a, pair.b].map(|carrier| carrier.field.res_resolution.get());
    if pair.unlike == RESOLUTION { resolutions.iter().filter(|float| float.is_nan()).count() } else { 0 }
}

/// By the pattern: of unlike floats it is that of a NaN, and of floats that are alike it is another only for the zeros.
fn same_resolution(pair: &Pair) -> bool {
    pair.a.field.res_resolution == pair.b.field.res_resolution
}

fn same_offset(pair: &Pair) -> bool {
    pair.a.field.res_offset == pair.b.field.res_offset
}
