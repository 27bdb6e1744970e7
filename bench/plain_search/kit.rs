//! What the search takes of the kit: vectors whose growth may fail, which here it never does.

pub use self::vec::Vec;

#[derive(Clone, Copy, Debug)]
pub struct Global;

#[derive(Clone, Copy, Debug, PartialEq, Eq)]
pub struct AllocError;

pub trait Model {}

#[macro_export]
macro_rules! filled {
    (in $alloc:expr; $value:expr; $count:expr) => {
        $crate::kit::Vec::filled($value, $count)
    };
}

mod vec {
    use super::{AllocError, Global};
    use std::ops::{Deref, DerefMut, Index, IndexMut, Range};

    #[derive(Clone, Debug)]
    pub struct Vec<T>(std::vec::Vec<T>);

    impl<T> Vec<T> {
        pub fn new(_: Global) -> Vec<T> {
            Vec(std::vec::Vec::new())
        }

        pub fn with_capacity(_: Global, count: usize) -> Result<Vec<T>, AllocError> {
            Ok(Vec(std::vec::Vec::with_capacity(count)))
        }

        pub fn allocator(&self) -> &Global {
            &Global
        }

        pub fn reserve(&mut self, more: usize) -> Result<(), AllocError> {
            self.0.reserve(more);
            Ok(())
        }

        pub fn push(&mut self, value: T) -> Result<(), AllocError> {
            self.0.push(value);
            Ok(())
        }

        pub fn push_reserved(&mut self, value: T) {
            self.0.push(value);
        }

        pub fn pop(&mut self) -> Option<T> {
            self.0.pop()
        }

        pub fn take_last(&mut self) -> T {
            self.0.pop().unwrap()
        }

        pub fn truncate(&mut self, count: usize) {
            self.0.truncate(count);
        }

        pub fn clear(&mut self) {
            self.0.clear();
        }

        pub fn as_slice(&self) -> &[T] {
            &self.0
        }
    }

    impl<T: Clone> Vec<T> {
        pub fn filled(value: T, count: usize) -> Result<Vec<T>, AllocError> {
            Ok(Vec(vec![value; count]))
        }

        pub fn from_slice(_: Global, slice: &[T]) -> Result<Vec<T>, AllocError> {
            Ok(Vec(slice.to_vec()))
        }

        pub fn resize(&mut self, count: usize, value: T) -> Result<(), AllocError> {
            self.0.resize(count, value);
            Ok(())
        }

        pub fn extend_from_slice(&mut self, slice: &[T]) -> Result<(), AllocError> {
            self.0.extend_from_slice(slice);
            Ok(())
        }

        pub fn extend_from_within(&mut self, range: Range<usize>) -> Result<(), AllocError> {
            self.0.extend_from_within(range);
            Ok(())
        }
    }

    impl<T> Deref for Vec<T> {
        type Target = [T];

        fn deref(&self) -> &[T] {
            &self.0
        }
    }

    impl<T> DerefMut for Vec<T> {
        fn deref_mut(&mut self) -> &mut [T] {
            &mut self.0
        }
    }

    // The proved program looks at no bounds, and so neither does this one; a wrong place may do anything.
    impl<T> Index<usize> for Vec<T> {
        type Output = T;

        fn index(&self, place: usize) -> &T {
            unsafe { self.0.get_unchecked(place) }
        }
    }

    impl<T> IndexMut<usize> for Vec<T> {
        fn index_mut(&mut self, place: usize) -> &mut T {
            unsafe { self.0.get_unchecked_mut(place) }
        }
    }

    impl<T> Index<Range<usize>> for Vec<T> {
        type Output = [T];

        fn index(&self, range: Range<usize>) -> &[T] {
            unsafe { self.0.get_unchecked(range) }
        }
    }

    impl<'a, T> IntoIterator for &'a Vec<T> {
        type Item = &'a T;
        type IntoIter = std::slice::Iter<'a, T>;

        fn into_iter(self) -> std::slice::Iter<'a, T> {
            self.0.iter()
        }
    }
}
