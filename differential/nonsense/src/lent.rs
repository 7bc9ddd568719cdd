//! A buffer as a host lends it, with a guard around it: pages that cannot be touched before and behind
//! it, the buffer against one of them, and a pattern in the bytes that are left between.
use crate::pages::{Pages, PAGE};
use numbers::dice::Dice;
use std::ops::Range;

/// What a slice of numbers crosses as. Floats cross by their bits.
pub trait Element: Copy + PartialEq + std::fmt::LowerHex {}
impl Element for u8 {}
impl Element for u32 {}
impl Element for u64 {}

/// The guard's bytes by their place in a page: no two neighbours alike.
const PATTERN: [u8; PAGE] = pattern();

const fn pattern() -> [u8; PAGE] {
    let mut bytes = [0; PAGE];
    let mut at = 0;
    while at < PAGE {
        bytes[at] = (at * 167 + at / 256 + 13) as u8;
        at += 1;
    }
    bytes
}

/// Pages of one size, the guard in all bytes but those that are lent.
struct Room {
    pages: Pages,
    lent: Range<usize>,
}

impl Room {
    fn new(count: usize) -> Room {
        let lent = 0..count * PAGE;
        let mut room = Room {
            pages: Pages::new(count),
            lent,
        };
        room.guard();
        room
    }

    /// The guard in the bytes that were lent: none are any more.
    fn guard(&mut self) {
        let Range { start, end } = self.lent;
        let bytes = self.pages.bytes_mut();
        let mut at = start;
        while at < end {
            let stop = end.min((at / PAGE + 1) * PAGE);
            bytes[at..stop].copy_from_slice(&PATTERN[at % PAGE..][..stop - at]);
            at = stop;
        }
        self.lent = 0..0;
    }

    /// How many bytes of the guard in a range are not as they were.
    fn changed(&self, Range { start, end }: Range<usize>) -> usize {
        let bytes = self.pages.bytes();
        let mut changed = 0;
        let mut at = start;
        while at < end {
            let stop = end.min((at / PAGE + 1) * PAGE);
            let (held, guard) = (&bytes[at..stop], &PATTERN[at % PAGE..][..stop - at]);
            if held != guard {
                changed += held.iter().zip(guard).filter(|(a, b)| a != b).count();
            }
            at = stop;
        }
        changed
    }
}

/// Lends one buffer after the other, each in the smallest room for it: 1, 2, 4, .. pages.
pub struct Lent<T> {
    rooms: Vec<Option<Room>>,
    /// The room of the buffer that is lent now, and how many elements it has.
    size: usize,
    len: usize,
    elements: std::marker::PhantomData<T>,
}

impl<T: Element> Default for Lent<T> {
    fn default() -> Lent<T> {
        Lent::new()
    }
}

impl<T: Element> Lent<T> {
    pub fn new() -> Lent<T> {
        let mut lent = Lent {
            rooms: Vec::new(),
            size: 0,
            len: 0,
            elements: std::marker::PhantomData,
        };
        lent.place(0, true);
        lent
    }

    /// Lends a buffer that holds these elements, at the start or at the end of its pages by chance.
    /// One of no elements has an address too.
    pub fn lend(&mut self, content: &[T], dice: &mut Dice) {
        self.place(content.len(), dice.once_in(2));
        self.elements_mut().copy_from_slice(content);
    }

    fn place(&mut self, len: usize, at_the_end: bool) {
        let bytes = len * size_of::<T>();
        let pages = bytes.div_ceil(PAGE).max(1).next_power_of_two();
        self.size = pages.trailing_zeros() as usize;
        self.len = len;
        while self.rooms.len() <= self.size {
            self.rooms.push(None);
        }
        let room = self.rooms[self.size].get_or_insert_with(|| Room::new(pages));
        room.guard();
        let start = if at_the_end { pages * PAGE - bytes } else { 0 };
        room.lent = start..start + bytes;
    }

    fn room(&self) -> &Room {
        self.rooms[self.size].as_ref().expect("a room")
    }

    fn elements_mut(&mut self) -> &mut [T] {
        // SAFETY: the elements lie in the room's pages, aligned since their size divides a page's, and
        // any bits are an element.
        unsafe { std::slice::from_raw_parts_mut(self.at_mut(), self.len) }
    }

    /// The address that is lent to be read.
    pub fn at(&self) -> *const T {
        let room = self.room();
        // SAFETY: a place within the pages, or the one behind them.
        unsafe { room.pages.start().add(room.lent.start).cast() }
    }

    /// The address that is lent to be written.
    pub fn at_mut(&mut self) -> *mut T {
        self.at().cast_mut()
    }

    /// The same addresses of floats, by whose bits the buffer was filled.
    pub fn floats(&self) -> *const f64 {
        self.at().cast()
    }

    pub fn floats_mut(&mut self) -> *mut f64 {
        self.at().cast_mut().cast()
    }

    pub fn len(&self) -> usize {
        self.len
    }

    /// What the buffer holds now.
    pub fn held(&self) -> &[T] {
        // SAFETY: as for `elements_mut`.
        unsafe { std::slice::from_raw_parts(self.at(), self.len) }
    }

    /// How many bytes between the guard's pages and outside the buffer are not as they were.
    pub fn changed_outside(&self) -> usize {
        let room = self.room();
        let behind = room.lent.end..room.pages.bytes().len();
        room.changed(0..room.lent.start) + room.changed(behind)
    }
}

#[cfg(test)]
mod tests {
    use super::*;

    #[test]
    fn a_byte_beside_the_buffer_is_noticed() {
        let mut dice = Dice::new(1);
        for len in [0, 1, 511, 512, 513, 5000] {
            for _ in 0..8 {
                let mut lent = Lent::<u64>::new();
                lent.lend(&vec![7; len], &mut dice);
                assert_eq!(
                    (lent.held(), lent.changed_outside()),
                    (&vec![7; len][..], 0)
                );
                let room = lent.rooms[lent.size].as_mut().unwrap();
                let (start, end) = (room.lent.start, room.lent.end);
                let bytes = room.pages.bytes_mut();
                let beside = if start > 0 { start - 1 } else { end };
                if beside < bytes.len() {
                    bytes[beside] ^= 1;
                    assert_eq!(lent.changed_outside(), 1);
                }
            }
        }
    }

    #[test]
    fn buffers_lie_against_both_guards() {
        let (mut dice, mut lent) = (Dice::new(1), Lent::<u32>::new());
        let mut ends = [0; 2];
        for _ in 0..64 {
            lent.lend(&[1, 2, 3], &mut dice);
            let at = lent.at() as usize % PAGE;
            assert!(at == 0 || at == PAGE - 12);
            ends[usize::from(at == 0)] += 1;
        }
        assert!(ends[0] > 0 && ends[1] > 0);
    }
}
