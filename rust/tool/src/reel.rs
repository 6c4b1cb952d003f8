//! A sheet that was read, with its schedule: what every other module looks things up in.

use rollmap::{
    edition, judge, marks, part, popups, records, schedule_to_vec, shape, view_to_map, Code,
    Edition, Map, Mark, Record, Refusal, Shape, View, Zoom,
};

use crate::Trouble;

/// An accepted sheet and its scheduled copy, taken apart. What holds of a sheet that is
/// scheduled here, demand 3 above all, holds of `scheduled`.
#[derive(Clone, Debug)]
pub struct Reel {
    /// The sheet as it was read.
    pub bytes: Vec<u8>,
    /// The sheet as scheduling writes it: the same bytes where the judge accepts them.
    pub scheduled: Vec<u8>,
    /// The marks by their numbers.
    pub marks: Vec<Mark>,
    /// The popup of each mark, 0 where the sheet has no part 5.
    pub popups: Vec<u32>,
    /// What becomes of each mark, by the scheduled copy.
    pub records: Vec<Record>,
    /// The edition that ranks the marks.
    pub edition: Edition,
    /// The shape of their labels.
    pub shape: Shape,
}

impl Reel {
    /// Opens a sheet: its schedule is judged where it has one, and worked out where it has
    /// none.
    ///
    /// # Errors
    ///
    /// What the library refuses: a wrong sheet, and by question [22](Refusal::Judgement) one
    /// with a schedule that is not ours.
    pub fn open(bytes: Vec<u8>) -> Result<Self, Trouble> {
        match judge(&bytes) {
            Ok(()) => Ok(Self::of(bytes.clone(), bytes)),
            Err(Refusal::Unscheduled) => {
                let reel = Self::afresh(bytes)?;
                reel.keeps_its_schedule()?;
                Ok(reel)
            }
            Err(refusal) => Err(refusal.into()),
        }
    }

    /// Opens a sheet and schedules it afresh, whatever schedule it has.
    ///
    /// # Errors
    ///
    /// What the library refuses.
    pub fn afresh(bytes: Vec<u8>) -> Result<Self, Trouble> {
        let scheduled = schedule_to_vec(&bytes)?;
        Ok(Self::of(bytes, scheduled))
    }

    /// The sheet `bytes`, of which `scheduled` is the scheduled copy, taken apart.
    fn of(bytes: Vec<u8>, scheduled: Vec<u8>) -> Self {
        Self {
            marks: marks(&scheduled).into_iter().flatten().collect(),
            popups: popups(&scheduled).into_iter().flatten().collect(),
            records: records(&scheduled).into_iter().flatten().collect(),
            edition: edition(&scheduled).unwrap_or_default(),
            shape: shape(&scheduled).unwrap_or_default(),
            bytes,
            scheduled,
        }
    }

    /// A sheet with part 2 and no part 3 is no matter for the judge: there, part 2 is held
    /// against that of the scheduled copy.
    fn keeps_its_schedule(&self) -> Result<(), Refusal> {
        match part(&self.bytes, Code::Schedule) {
            Some(schedule) if Some(schedule) != part(&self.scheduled, Code::Schedule) => {
                Err(Refusal::Judgement)
            }
            _ => Ok(()),
        }
    }

    /// Whether the sheet has popups of its own, part 5.
    pub fn has_popups(&self) -> bool {
        part(&self.scheduled, Code::Popups).is_some()
    }

    /// The marks that a view shows.
    ///
    /// # Errors
    ///
    /// What the library refuses of the view: questions 11, 12 and 20.
    pub fn shown(&self, view: View) -> Result<Map, Trouble> {
        Ok(view_to_map(&self.scheduled, view)?)
    }

    /// The marks that live at a zoom: those that the view of all places shows.
    ///
    /// # Errors
    ///
    /// Question [12](Refusal::Zoom).
    pub fn living(&self, zoom: Zoom) -> Result<Map, Trouble> {
        self.shown(View::whole(zoom))
    }
}
