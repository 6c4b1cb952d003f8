//! Views by a search down the tree, and walking a map.

use oracle::map::{map_bytes, set_bit};
use oracle::shape::Shape;
use oracle::tree::{branches, Axis};
use oracle::turn::turned;
use oracle::view::{ask_view, label_reaches, Edges, Window};
use oracle::zoom::{lives, remains, Zoom};
use oracle::{ask, Refusal};

use super::index::{number, Block, Indexed};
use super::sheet::open;

/// Answers a view: writes its map and answers the count. Asks 1 to 13.
pub fn view(sheet: &[u8], window: Window, zoom: Zoom, map: &mut [u8]) -> Result<u32, Refusal> {
    let search = search(sheet, window, zoom)?;
    let bytes = map_bytes(search.indexed.index.len());
    ask(13, map.len() >= bytes)?;
    map[..bytes].fill(0);
    Ok(search.block(search.indexed.index, Axis::TOP, map))
}

/// How many marks a view looks at. Asks 1 to 12.
pub fn visited(sheet: &[u8], window: Window, zoom: Zoom) -> Result<usize, Refusal> {
    let search = search(sheet, window, zoom)?;
    Ok(search.visited(search.indexed.index, Axis::TOP))
}

/// The search of a view. Asks 1 to 12.
fn search(sheet: &[u8], window: Window, zoom: Zoom) -> Result<Search<'_>, Refusal> {
    let indexed = Indexed::of(&open(sheet)?).ok_or(10_u32)?;
    let k = ask_view(indexed.shape(), window, zoom)?;
    Ok(Search::new(indexed, turned_back(window), k))
}

/// The rectangle that a window's turn takes to its own: by as many quarter turns as are
/// left of four, its corners come to where places are not turned.
pub fn turned_back(window: Window) -> Edges {
    let Edges { x0, x1, y0, y1 } = window.edges;
    let corner = |x, y| turned(4 - window.turn, x, y);
    let ((ax, ay), (bx, by)) = (corner(x0, y0), corner(x1, y1));
    Edges {
        x0: ax.min(bx),
        x1: ax.max(bx),
        y0: ay.min(by),
        y1: ay.max(by),
    }
}

/// A search down the tree, in places that are not turned. The rectangle decides who is
/// shown, and the widened one, from `low` to `high` on each axis, which halves are
/// searched.
struct Search<'a> {
    indexed: Indexed<'a>,
    shape: Shape,
    edges: Edges,
    k: u32,
    low: [i32; 2],
    high: [i32; 2],
}

impl<'a> Search<'a> {
    /// The search with the rectangle widened by the widest label that is not removed.
    fn new(indexed: Indexed<'a>, edges: Edges, k: u32) -> Self {
        let by = (u64::from(k) * u64::from(widest_remaining(&indexed, k)) / 64) as i32;
        Self {
            indexed,
            shape: indexed.shape(),
            edges,
            k,
            low: [edges.x0, edges.y0].map(|edge| edge - by),
            high: [edges.x1, edges.y1].map(|edge| edge + by),
        }
    }

    /// Sets the bits of a block's shown marks, and answers how many they are. Where the root
    /// is removed, all of the block are; where it has not popped up, others may have.
    fn block(&self, block: &Block, axis: Axis, map: &mut [u8]) -> u32 {
        let Some((root, left, right)) = branches(block) else {
            return 0;
        };
        let root = number(root);
        let removal = self.indexed.removal(root);
        if !remains(removal, self.k) {
            return 0;
        }
        let label = || self.indexed.mark(root).label();
        let shown = lives(self.indexed.popup(root), removal, self.k)
            && label_reaches(self.shape, label(), self.edges, self.k);
        set_bit(map, root, shown);
        let mut count = u32::from(shown);
        for half in self.halves(left, right, axis) {
            count += self.block(half, axis.next(), map);
        }
        count
    }

    /// How many marks of a block are looked at.
    fn visited(&self, block: &Block, axis: Axis) -> usize {
        let Some((root, left, right)) = branches(block) else {
            return 0;
        };
        if !remains(self.indexed.removal(number(root)), self.k) {
            return 1;
        }
        let halves = self.halves(left, right, axis).into_iter();
        1 + halves
            .map(|half| self.visited(half, axis.next()))
            .sum::<usize>()
    }

    /// The two halves below a root, with no marks where they lie beyond the widened
    /// rectangle.
    fn halves<'b>(&self, left: &'b Block, right: &'b Block, axis: Axis) -> [&'b Block; 2] {
        let search_left = right.is_empty() || self.head(right, axis) >= self.low[axis as usize];
        let search_right = !right.is_empty() && self.head(left, axis) <= self.high[axis as usize];
        [
            if search_left { left } else { &[] },
            if search_right { right } else { &[] },
        ]
    }

    /// The coordinate of the head of a block.
    fn head(&self, block: &Block, axis: Axis) -> i32 {
        axis.of(&self.indexed.mark(number(&block[0]))).into()
    }
}

/// The greatest used radius of the marks that are not removed.
fn widest_remaining(indexed: &Indexed, k: u32) -> u32 {
    (0..indexed.index.len()).fold(0, |widest, m| {
        let radius = indexed.mark(m).label().radius;
        if radius > widest && remains(indexed.removal(m), k) {
            radius
        } else {
            widest
        }
    })
}

/// The least set bit of a map at or after `start` and below `n`.
pub fn walk(map: &[u8], n: usize, start: usize) -> Option<usize> {
    let mut at = start;
    while at < n {
        let word = word_at(map, at / 8) >> (at % 8);
        if word != 0 {
            let found = at + word.trailing_zeros() as usize;
            return (found < n).then_some(found);
        }
        at = (at / 8 + 8) * 8;
    }
    None
}

/// The 8 bytes of a map from a byte on, or as many as there are.
fn word_at(map: &[u8], byte: usize) -> u64 {
    let rest = &map[byte..];
    if let Some(whole) = rest.first_chunk() {
        return u64::from_le_bytes(*whole);
    }
    let mut padded = [0; 8];
    padded[..rest.len()].copy_from_slice(rest);
    u64::from_le_bytes(padded)
}
