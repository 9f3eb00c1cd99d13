//! Findings as eight numbers (document 01, "Findings"), and the names of rules and causes.

/// The places of a finding.
pub const FIELDTYPES: u32 = 0;
pub const PGN: u32 = 1;
pub const LOOKUP: u32 = 2;
pub const GROUP: u32 = 3;

#[derive(Clone, Copy, PartialEq, Eq, Debug, Default)]
pub struct Finding {
    pub rule: u32,
    /// 1 error, 0 warning
    pub severity: u32,
    pub cause: u32,
    pub place: u32,
    pub tree: u32,
    pub item: u32,
    pub part: u32,
    pub other: u32,
}

impl Finding {
    pub fn numbers(&self) -> [u32; 8] {
        [self.rule, self.severity, self.cause, self.place, self.tree, self.item, self.part, self.other]
    }

    pub fn from_numbers([rule, severity, cause, place, tree, item, part, other]: [u32; 8]) -> Self {
        Finding { rule, severity, cause, place, tree, item, part, other }
    }

    pub fn is_error(&self) -> bool {
        self.severity == 1
    }
}

/// Each rule with how many causes it has, in the order of the numbers; R40 and R41 are left out.
pub const CAUSES: [(u32, u32); 21] = [
    (2, 6),
    (4, 2),
    (5, 5),
    (6, 3),
    (7, 1),
    (8, 7),
    (9, 1),
    (11, 1),
    (12, 1),
    (13, 2),
    (14, 2),
    (15, 5),
    (16, 3),
    (20, 2),
    (21, 2),
    (22, 1),
    (23, 1),
    (24, 2),
    (42, 3),
    (43, 9),
    (44, 4),
];
