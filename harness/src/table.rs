//! What a run reached, as a table. Something never reached is a failure of the run.

use crate::finding::CAUSES;
use std::fmt;

pub struct Table {
    title: &'static str,
    rows: Vec<(String, u64)>,
}

impl Table {
    pub fn new(title: &'static str, names: impl IntoIterator<Item = String>) -> Self {
        Table { title, rows: names.into_iter().map(|name| (name, 0)).collect() }
    }

    /// One more of the row of this index.
    pub fn hit(&mut self, row: usize) {
        self.rows[row].1 += 1;
    }

    /// One more of the row of this name.
    pub fn reached(&mut self, name: &str) {
        let row = self.rows.iter().position(|(row, _)| row == name);
        self.hit(row.unwrap_or_else(|| panic!("the table has no row {name}")));
    }

    pub fn never_reached(&self) -> Vec<&str> {
        self.rows.iter().filter(|(_, count)| *count == 0).map(|(name, _)| name.as_str()).collect()
    }
}

impl fmt::Display for Table {
    fn fmt(&self, f: &mut fmt::Formatter) -> fmt::Result {
        writeln!(f, "{}", self.title)?;
        let width = self.rows.iter().map(|(name, _)| name.len()).max().unwrap_or(0).max(12);
        for row in self.rows.chunks(5) {
            for (name, count) in row {
                write!(f, "  {name:>width$} {count:>9}")?;
            }
            writeln!(f)?;
        }
        match self.never_reached()[..] {
            [] => Ok(()),
            ref never => writeln!(f, "  NEVER REACHED: {}", never.join(", ")),
        }
    }
}

/// A table of every rule and cause, and the row of each.
pub struct RuleTable {
    pub table: Table,
    rows: [[usize; 10]; 45],
}

impl RuleTable {
    pub fn new() -> Self {
        let mut rows = [[0; 10]; 45];
        let mut names = Vec::new();
        for (rule, causes) in CAUSES {
            for cause in 1..=causes {
                rows[rule as usize][cause as usize] = names.len();
                names.push(format!("R{rule:02}.{cause}"));
            }
        }
        RuleTable { table: Table::new("findings by rule and cause", names), rows }
    }

    pub fn hit(&mut self, rule: u32, cause: u32) {
        self.table.hit(self.rows[rule as usize][cause as usize]);
    }
}

impl Default for RuleTable {
    fn default() -> Self {
        Self::new()
    }
}
