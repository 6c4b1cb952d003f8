//! Judging by a look at all pairs, and by a scan of the higher-ranked marks alone.

use oracle::record::Record;
use oracle::sheet::Rows;
use oracle::{ask, Refusal};

use super::schedule::Desk;
use super::sheet::open;
use super::value::Value;

impl Desk {
    /// Judges the schedule of a sheet by a scan of the marks that rank higher than each. Asks
    /// 1 to 10, and 22.
    pub fn judge_by_scan(&mut self, sheet: &[u8]) -> Result<(), Refusal> {
        self.judge(sheet, Self::is_clear)
    }

    /// The same by all pairs, as the rules say.
    pub fn judge_by_pairs(&mut self, sheet: &[u8]) -> Result<(), Refusal> {
        self.judge(sheet, Self::keeps_rules)
    }

    /// Judges a sheet by a test of each row.
    fn judge(&mut self, sheet: &[u8], test: impl Fn(&Self, usize) -> bool) -> Result<(), Refusal> {
        let rows = open(sheet)?;
        ask(10, rows.records.is_some() && rows.index.is_some())?;
        self.lay_out(&rows);
        self.take_records(&rows);
        ask(22, (0..self.rows.len()).all(|p| test(self, p)))
    }

    /// Gives the rows the removal values that the records name, and the marks by their numbers.
    fn take_records(&mut self, rows: &Rows) {
        let records = rows.records.unwrap_or_default();
        for (rank, row) in self.order.iter().zip(&mut self.rows) {
            let record = Record::read(&records[rank.number()]);
            row.value = record.removal().into();
            row.eliminator = record.eliminator.into();
        }
    }

    /// Whether no earlier row and row p both outlive their pair value, and the first of the
    /// earlier ones that outlives it where p goes is the one that p names. Most of them do not
    /// even touch p before it goes.
    fn is_clear(&self, p: usize) -> bool {
        let row = self.rows[p];
        let mut named = row.value == Value::NEVER;
        for (q, other) in self.rows[..p].iter().enumerate() {
            let touching = row.label.touching_value(other.label, self.shape);
            if Value::from(touching).later_than(row.value) {
                continue;
            }
            let value = Value::from(self.popups.pair_value(p, q, touching));
            if value.later_than(row.value) || !other.value.later_than(value) {
                continue;
            }
            let is_named = self.order[q].number() == row.eliminator as usize;
            if row.value.later_than(value) || !(named || is_named) {
                return false;
            }
            named = true;
        }
        named
    }

    /// Whether row p keeps both rules with all others, and names the highest-ranked of those
    /// that remove it.
    fn keeps_rules(&self, p: usize) -> bool {
        let row = self.rows[p];
        let mut named = row.value == Value::NEVER;
        for (q, other) in self.rows.iter().enumerate() {
            if q == p {
                continue;
            }
            let touching = row.label.touching_value(other.label, self.shape);
            let value = Value::from(self.popups.pair_value(p, q, touching));
            if !other.value.later_than(value) {
                continue;
            }
            if row.value.later_than(value) {
                return false;
            }
            if named || q > p || value.later_than(row.value) {
                continue;
            }
            if self.order[q].number() != row.eliminator as usize {
                return false;
            }
            named = true;
        }
        named
    }
}
