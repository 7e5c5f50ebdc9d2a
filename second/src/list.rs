//! Lists in lent storage.

/// Rows that fill the storage from its front; what lies behind them stays as it was.
pub struct List<'a, T> {
    storage: &'a mut [T],
    filled: usize,
}

/// What is the matter with a list that takes no more rows.
#[derive(Clone, Copy, Debug, PartialEq)]
pub struct Full;

impl<'a, T> List<'a, T> {
    pub fn new(storage: &'a mut [T]) -> List<'a, T> {
        List { storage, filled: 0 }
    }

    pub fn rows(&self) -> &[T] {
        &self.storage[..self.filled]
    }

    pub fn is_full(&self) -> bool {
        self.filled == self.storage.len()
    }

    /// Forgets all rows, which stay in the storage until others take their place.
    pub fn clear(&mut self) {
        self.filled = 0;
    }

    pub fn push(&mut self, row: T) -> Result<(), Full> {
        let place = self.storage.get_mut(self.filled).ok_or(Full)?;
        *place = row;
        self.filled += 1;
        Ok(())
    }
}

#[cfg(test)]
mod tests {
    use super::*;

    #[test]
    fn rows_fill_the_front() {
        let mut storage = [7; 4];
        let mut list = List::new(&mut storage);
        assert_eq!(list.rows(), []);
        assert_eq!(list.push(1), Ok(()));
        assert_eq!(list.push(2), Ok(()));
        assert_eq!(list.rows(), [1, 2]);
        assert!(!list.is_full());
        assert_eq!(storage, [1, 2, 7, 7]);
    }

    #[test]
    fn a_full_list_takes_nothing() {
        let mut storage = [7; 2];
        let mut list = List::new(&mut storage);
        assert_eq!((list.push(1), list.is_full()), (Ok(()), false));
        assert_eq!((list.push(2), list.is_full()), (Ok(()), true));
        assert_eq!((list.push(3), list.is_full()), (Err(Full), true));
        assert_eq!(list.rows(), [1, 2]);
        let mut nothing = List::new(&mut []);
        assert!(nothing.is_full());
        assert_eq!(nothing.push(1), Err(Full));
    }

    #[test]
    fn cleared_rows_stay_behind_new_ones() {
        let mut storage = [7; 3];
        let mut list = List::new(&mut storage);
        assert_eq!((list.push(1), list.push(2)), (Ok(()), Ok(())));
        list.clear();
        assert_eq!(list.rows(), []);
        assert_eq!(list.push(3), Ok(()));
        assert_eq!(list.rows(), [3]);
        assert_eq!(storage, [3, 2, 7]);
    }
}
