//! Iterators over what is read by index.

/// An iterator that reads rows 0 to a number in turn, from either end. What it skips it does not read.
macro_rules! in_turn {
    ($(#[$said:meta])* $name:ident<$($life:lifetime),*> of $over:ty, $read:expr, giving $item:ty) => {
        $(#[$said])*
        #[derive(Clone, Debug)]
        #[must_use]
        pub struct $name<$($life),*> {
            over: $over,
            left: core::ops::Range<usize>,
        }

        impl<$($life),*> Iterator for $name<$($life),*> {
            type Item = Result<$item, $crate::Refusal>;

            #[inline]
            fn next(&mut self) -> Option<Self::Item> {
                self.left.next().map(|index| $read(&self.over, index))
            }

            #[inline]
            fn nth(&mut self, n: usize) -> Option<Self::Item> {
                self.left.nth(n).map(|index| $read(&self.over, index))
            }

            fn size_hint(&self) -> (usize, Option<usize>) {
                self.left.size_hint()
            }

            fn count(self) -> usize {
                self.left.len()
            }

            fn last(mut self) -> Option<Self::Item> {
                self.next_back()
            }
        }

        impl<$($life),*> DoubleEndedIterator for $name<$($life),*> {
            #[inline]
            fn next_back(&mut self) -> Option<Self::Item> {
                self.left.next_back().map(|index| $read(&self.over, index))
            }

            #[inline]
            fn nth_back(&mut self, n: usize) -> Option<Self::Item> {
                self.left.nth_back(n).map(|index| $read(&self.over, index))
            }
        }

        impl<$($life),*> ExactSizeIterator for $name<$($life),*> {}

        impl<$($life),*> core::iter::FusedIterator for $name<$($life),*> {}
    };
}

pub(crate) use in_turn;
