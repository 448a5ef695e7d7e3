//! What a caller lends: the five buffers, a frame's entries, and an end call's working area.

use runs::random::Random;
use runs::reference::Reference;
use tree_borrows::raw::Entry;
use tree_borrows::Buffers;

pub const AREA: usize = 32768;
pub const PLACES: usize = 64;

#[derive(Clone, PartialEq)]
pub struct Lent {
    pub buffers: Buffers,
    pub frame: Frame,
    pub area: Vec<u8>,
}

/// Places for the entries of one frame, of which the first `count` are taken.
#[derive(Clone, PartialEq)]
pub struct Frame {
    pub places: Vec<Entry>,
    pub count: usize,
}

impl Frame {
    /// One of the memory's open frames, or one without entries.
    pub fn draw(r: &mut Random, m: &Reference) -> Frame {
        let open: Vec<_> = m.frames.iter().flatten().collect();
        let entries = if open.is_empty() { &Vec::new() } else { open[r.index(open.len())] };
        Frame::of(entries)
    }

    pub fn of(entries: &[(usize, usize)]) -> Frame {
        let mut frame = Frame { places: vec![Entry { allocation: 0, node: 0 }; PLACES], count: 0 };
        frame.write(entries);
        frame
    }

    /// The entries stand at the front, and what is behind them is as it was.
    pub fn write(&mut self, entries: &[(usize, usize)]) {
        for (place, &(allocation, node)) in self.places.iter_mut().zip(entries) {
            *place = Entry { allocation: allocation as u32, node: node as u32 };
        }
        self.count = entries.len();
    }

    /// Anything at the places behind the entries.
    pub fn fill_behind(&mut self, r: &mut Random) {
        for place in self.places.iter_mut().skip(self.count) {
            *place = Entry { allocation: r.next() as u32, node: r.next() as u32 };
        }
    }

    pub fn has_its_length(&self) -> bool {
        self.places.len() == PLACES && self.count <= PLACES
    }

    pub fn entries(&self) -> Vec<(usize, usize)> {
        let taken = &self.places[..self.count.min(self.places.len())];
        taken.iter().map(|entry| (entry.allocation as usize, entry.node as usize)).collect()
    }
}

impl std::fmt::Debug for Lent {
    fn fmt(&self, f: &mut std::fmt::Formatter) -> std::fmt::Result {
        let (frame, area) = (&self.frame, &self.area);
        let dirty = area.iter().filter(|&&x| x != 0).count();
        writeln!(
            f,
            "{} entries counted in {} places: {:?}",
            frame.count,
            frame.places.len(),
            frame.entries()
        )?;
        writeln!(f, "working area of {}, not zero: {dirty}", area.len())
    }
}
