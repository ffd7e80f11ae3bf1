//! A stack of at most N values; one more is a panic.
use super::FastStack;

#[derive(Clone)]
pub struct StackStack<T: Copy + Default, const N: usize> {
    data: [T; N],
    index: usize,
}

impl<T: Copy + Default, const N: usize> Default for StackStack<T, N> {
    fn default() -> Self {
        StackStack { data: [T::default(); N], index: 0 }
    }
}

impl<T: Copy + Default, const N: usize> FastStack<T> for StackStack<T, N> {
    #[inline(always)]
    fn push(&mut self, v: T) {
        self.data[self.index] = v;
        self.index += 1;
    }
    #[inline(always)]
    fn pop_fast(&mut self) -> T {
        self.index = self.index.saturating_sub(1);
        self.data[self.index]
    }
    #[inline(always)]
    fn pop(&mut self) -> Option<T> {
        if self.index == 0 { None } else { Some(self.pop_fast()) }
    }
    #[inline(always)]
    fn len(&self) -> usize {
        self.index
    }
    #[inline(always)]
    fn is_empty(&self) -> bool {
        self.index == 0
    }
    #[inline(always)]
    fn clear(&mut self) {
        self.index = 0;
    }
}
