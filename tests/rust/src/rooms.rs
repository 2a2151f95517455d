//! Rooms that show every write: a room lies inside a larger array, and the whole array is filled with numbers
//! that no call writes, another one at each place. There is no such byte; so rooms of bytes come in pairs that
//! differ at every place, and a write that one of them hides shows in the other.

const MARGIN: usize = 4;

/// A number that rooms hold.
pub trait Number: Copy + PartialEq {
    /// A number that no call writes; another one for each of the first 2^15 places.
    fn canary(place: usize) -> Self;
}

impl Number for u32 {
    /// At least 2^31, so neither a table entry nor a position nor a length.
    fn canary(place: usize) -> u32 {
        0x8000_0000 | (place as u32).wrapping_mul(0x0019_660D).wrapping_add(0x3C6E_F35F)
    }
}

impl Number for u16 {
    /// At least 2^15, so no table entry.
    fn canary(place: usize) -> u16 {
        0x8000 | u32::canary(place) as u16
    }
}

/// A room to lend, of 32-bit numbers where nothing else is said.
#[derive(Clone)]
pub struct Room<T = u32> {
    /// Margin, room, margin.
    array: Vec<T>,
    /// The array as it was made.
    before: Vec<T>,
}

impl<T: Number> Room<T> {
    /// A room of this length, filled with large numbers that are all different.
    pub fn new(length: usize) -> Room<T> {
        Room::made((0..length + 2 * MARGIN).map(T::canary).collect())
    }

    /// A room that holds these numbers.
    pub fn holding(numbers: &[T]) -> Room<T> {
        let mut array: Vec<T> = (0..numbers.len() + 2 * MARGIN).map(T::canary).collect();
        array[MARGIN..MARGIN + numbers.len()].copy_from_slice(numbers);
        Room::made(array)
    }
}

impl Room<u8> {
    /// Two rooms of this length that hold different bytes at every place.
    pub fn pair_of_bytes(length: usize) -> [Room<u8>; 2] {
        let bytes = |flip: u32| {
            (0..length + 2 * MARGIN).map(|place| ((u32::canary(place) ^ flip) >> 8) as u8).collect()
        };
        [Room::made(bytes(0)), Room::made(bytes(u32::MAX))]
    }
}

impl<T: Copy + PartialEq> Room<T> {
    fn made(array: Vec<T>) -> Room<T> {
        Room { before: array.clone(), array }
    }

    /// The room itself, for a call.
    pub fn lend(&mut self) -> &mut [T] {
        let end = self.array.len() - MARGIN;
        &mut self.array[MARGIN..end]
    }

    pub fn length(&self) -> usize {
        self.array.len() - 2 * MARGIN
    }

    /// True where the room begins with these numbers, and everything else, inside and outside, is as it was.
    pub fn holds_just(&self, front: &[T]) -> bool {
        let end = MARGIN + front.len();
        self.array[..MARGIN] == self.before[..MARGIN]
            && self.array[MARGIN..end] == *front
            && self.array[end..] == self.before[end..]
    }

    /// True where nothing was written at all.
    pub fn is_untouched(&self) -> bool {
        self.array == self.before
    }
}
