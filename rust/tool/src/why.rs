//! Why a mark is gone: the chain of the marks that removed one another.

use std::iter::successors;

use rollmap::{Record, NO_POPUP};

use crate::words;
use crate::Reel;

/// A mark of a chain and what becomes of it.
#[derive(Clone, Copy, Debug, PartialEq, Eq)]
pub struct Link {
    /// The mark's number.
    pub mark: usize,
    /// Its record: the next link, if there is one, is its eliminator.
    pub record: Record,
}

/// The chain from a mark to one that is never removed: each link is removed by the next one.
/// A mark that is not on the reel has none.
pub fn chain(reel: &Reel, mark: usize) -> Vec<Link> {
    links(reel, mark).collect()
}

/// The links of a chain one by one, for those who do not want it whole.
pub fn links(reel: &Reel, mark: usize) -> impl Iterator<Item = Link> + '_ {
    let link = |mark| {
        let record = *reel.records.get(mark)?;
        Some(Link { mark, record })
    };
    let next = move |before: &Link| link(eliminator(before.record)?);
    // No mark comes twice, since each is removed later than the one before.
    successors(link(mark), next).take(reel.records.len())
}

/// The number of the mark that removes one with this record.
pub fn eliminator(record: Record) -> Option<usize> {
    match record {
        Record::Never => None,
        Record::Removed { eliminator, .. } => Some(eliminator.into()),
    }
}

/// The chain in words: what the mark is, and then a sentence for each link.
pub fn why(reel: &Reel, mark: usize) -> Vec<String> {
    let chain = chain(reel, mark);
    chain
        .iter()
        .flat_map(|link| sentences(reel, *link))
        .collect()
}

/// What the mark of a link is, when it pops up, and what becomes of it.
fn sentences(reel: &Reel, link: Link) -> Vec<String> {
    let m = link.mark;
    let mut sentences = vec![format!("Mark {m} is a {}.", words::mark(&reel.marks[m]))];
    if reel.popups[m] != NO_POPUP {
        let zoom = words::zoom_of(reel.popups[m].into());
        sentences.push(format!("Mark {m} pops up at zoom {zoom}."));
    }
    sentences.push(ending(link));
    sentences
}

/// What becomes of the mark of a link.
pub fn ending(link: Link) -> String {
    let m = link.mark;
    match link.record {
        Record::Never => format!("Mark {m} is never removed."),
        Record::Removed {
            eliminator,
            numerator,
            denominator,
        } => {
            let zoom = words::zoom_of_square(numerator, denominator.into());
            format!(
                "Mark {m} goes at {zoom}, where it meets mark {eliminator}, which ranks higher."
            )
        }
    }
}
