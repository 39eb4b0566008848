//! The part of the kit's crate `arrayvec` that the library uses, for items that are copied.
use std::ops::{Deref, DerefMut};

pub struct ArrayVec<T, const N: usize> {
    items: [T; N],
    len: usize,
}

impl<T: Copy + Default, const N: usize> ArrayVec<T, N> {
    pub fn new() -> ArrayVec<T, N> {
        ArrayVec {
            items: [T::default(); N],
            len: 0,
        }
    }

    #[inline(always)]
    pub fn push(&mut self, item: T) {
        self.items[self.len] = item;
        self.len += 1;
    }

    #[inline(always)]
    pub fn try_push(&mut self, item: T) -> Result<(), T> {
        if self.len == N {
            return Err(item);
        }
        self.push(item);
        Ok(())
    }

    pub fn try_extend_from_slice(&mut self, items: &[T]) -> Result<(), ()> {
        if items.len() > N - self.len {
            return Err(());
        }
        for item in items {
            self.push(*item);
        }
        Ok(())
    }

    pub fn as_mut_slice(&mut self) -> &mut [T] {
        self
    }
}

impl<T, const N: usize> Deref for ArrayVec<T, N> {
    type Target = [T];

    fn deref(&self) -> &[T] {
        &self.items[..self.len]
    }
}

impl<T, const N: usize> DerefMut for ArrayVec<T, N> {
    fn deref_mut(&mut self) -> &mut [T] {
        &mut self.items[..self.len]
    }
}
