//! Slices to lend: guards before and behind them, and NaNs or a pattern of bytes in all of them.

const GUARDS: usize = 64;

/// The bits of NaN number k: a quiet or a signalling one of either sign, with a payload of its own.
pub fn nan(k: usize) -> u32 {
    [0x7fc0_0000, 0xffc0_0000, 0x7f80_0000, 0xff80_0000][k % 4] + 1 + k as u32 % 0x3f_ffff
}

pub fn byte(k: usize) -> u8 {
    (k * 7 + 129) as u8
}

/// A slice with guards before and behind it, and what all of it held at first.
pub struct Lent<T> {
    all: Vec<T>,
    before: Vec<T>,
    pub long: usize,
}

impl<T: Copy + PartialEq + std::fmt::Debug> Lent<T> {
    pub fn new(long: usize, pattern: fn(usize) -> T) -> Lent<T> {
        let all: Vec<T> = (0..long + 2 * GUARDS).map(pattern).collect();
        Lent { before: all.clone(), all, long }
    }

    pub fn pointer(&mut self) -> *mut T {
        self.all[GUARDS..].as_mut_ptr()
    }

    /// The first elements, which the call may have written.
    pub fn front(&self, used: usize) -> &[T] {
        &self.all[GUARDS..GUARDS + used]
    }

    /// All else is as it was.
    pub fn kept_past(&self, used: usize, what: &str) {
        assert!(used <= self.long, "{what}");
        assert_eq!(self.all[..GUARDS], self.before[..GUARDS], "{what}: before the slice");
        assert_eq!(self.all[GUARDS + used..], self.before[GUARDS + used..], "{what}: past {used} of {}", self.long);
    }
}
