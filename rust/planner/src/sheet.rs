//! The foreman's sheet: the held plan, day by day.

use crate::layout::{Desk, DAY_BYTES, PAIR_BYTES, PLAN_BYTES};
use crate::refusal::Refusal;

/// An entry of a plan: the numbers of its surveyor and its stand, and its shift.
#[derive(Clone, Copy, Debug, PartialEq, Eq, PartialOrd, Ord)]
pub struct Entry {
    pub surveyor: u8,
    pub stand: u8,
    pub shift: u8,
}

/// A plan spread over days. On each day a surveyor and a stand have at most one
/// entry, and no spreading of the plan has fewer days.
#[derive(Clone, Debug, Default, PartialEq, Eq)]
pub struct Sheet {
    /// The entries of each day, from day 1 on; each day's ascend.
    pub days: Vec<Vec<Entry>>,
}

impl Desk {
    /// The held plan as a sheet. It is refused where [`Desk::spread`] is, with a
    /// buffer large enough.
    pub fn sheet(&self) -> Result<Sheet, Refusal> {
        let (mut plan, mut days) = ([0; PLAN_BYTES], [0; DAY_BYTES]);
        let length = self.write_plan(&mut plan)?;
        let count = self.spread(&mut days)?;
        let mut sheet = Sheet::default();
        for (pair, &day) in plan[1..length].chunks_exact(PAIR_BYTES).zip(&days[..count]) {
            sheet.put(day, pair);
        }
        Ok(sheet)
    }
}

impl Sheet {
    fn put(&mut self, day: u8, pair: &[u8]) {
        let day = usize::from(day);
        if self.days.len() < day {
            self.days.resize(day, Vec::new());
        }
        self.days[day - 1].push(Entry {
            surveyor: pair[0],
            stand: pair[1],
            shift: pair[2],
        });
    }
}
