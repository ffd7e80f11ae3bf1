//! Slices to lend with guards at both ends, full of patterns that a call might spoil.

pub const GUARDS: usize = 16;

/// A quiet or signalling NaN of either sign with a payload of its own, as bits.
pub fn nan(k: usize) -> u32 {
    [0x7fc0_0000, 0xffc0_0000, 0x7f80_0000, 0xff80_0000][k % 4] + 1 + k as u32 % 0x3f_ffff
}

/// A slice with guards at both ends, and what all of it held at first.
pub struct Lent<T> {
    pub all: Vec<T>,
    before: Vec<T>,
    pub long: usize,
}

impl<T: Copy + PartialEq + std::fmt::Debug> Lent<T> {
    pub fn new(long: usize, pattern: fn(usize) -> T) -> Lent<T> {
        let all: Vec<T> = (0..long + 2 * GUARDS).map(pattern).collect();
        Lent { before: all.clone(), all, long }
    }

    pub fn pointer(&mut self) -> *mut T {
        self.all[GUARDS..].as_mut_ptr()
    }

    /// All but the first elements is as it was.
    pub fn kept_past(&self, used: usize) {
        assert_eq!(self.all[..GUARDS], self.before[..GUARDS]);
        assert_eq!(self.all[GUARDS + used..], self.before[GUARDS + used..]);
    }
}

pub fn byte(k: usize) -> u8 {
    (k * 7 + 129) as u8
}

pub fn word(k: usize) -> u64 {
    nan(k) as u64 * 0x1_0000_0001
}
