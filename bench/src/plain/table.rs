//! Tables whose keys rise from row to row.

use super::fault::Cause;

/// The most lines that an end line can count, and so the most rows that are worth setting aside.
const MOST_LINES: usize = 16_384;

/// A table of so many rows at the most. Its keys rise strictly, so that a row is found by halving.
pub struct Table<Key, Row> {
    keys: Vec<Key>,
    rows: Vec<Row>,
    room: usize,
}

impl<Key: Ord, Row> Table<Key, Row> {
    /// An empty table that has room for so many rows.
    pub fn new(room: usize) -> Self {
        let likely = room.min(MOST_LINES);
        Self {
            keys: Vec::with_capacity(likely),
            rows: Vec::with_capacity(likely),
            room,
        }
    }

    /// How many rows are filled.
    pub fn len(&self) -> usize {
        self.keys.len()
    }

    /// Adds a row behind the last one.
    pub fn add(&mut self, key: Key, row: Row) -> Result<(), Cause> {
        self.rise_to(&key)?;
        if self.keys.len() >= self.room {
            return Err(Cause::Room);
        }
        self.keys.push(key);
        self.rows.push(row);
        Ok(())
    }

    /// Whether the key comes after all that are there.
    pub fn rise_to(&self, key: &Key) -> Result<(), Cause> {
        match self.keys.last() {
            Some(last) if last >= key => Err(Cause::Sequence),
            _ => Ok(()),
        }
    }

    /// The key so many rows before the end, where 1 is the last one.
    pub fn key_from_end(&self, rows: usize) -> Option<&Key> {
        self.keys.get(self.keys.len().checked_sub(rows)?)
    }

    /// The number of the row that has the key.
    pub fn find(&self, key: &Key) -> Option<usize> {
        let place = self.place(key);
        (self.keys.get(place) == Some(key)).then_some(place)
    }

    /// The first key that is not before the one given.
    pub fn first_from(&self, key: &Key) -> Option<&Key> {
        self.keys.get(self.place(key))
    }

    /// The row of a number that `find` gave.
    pub fn row(&self, number: usize) -> &Row {
        &self.rows[number]
    }

    /// The row of a number that `find` gave, to be changed.
    pub fn row_mut(&mut self, number: usize) -> &mut Row {
        &mut self.rows[number]
    }
    /// How many keys are before the one given, found by halving.
    fn place(&self, key: &Key) -> usize {
        self.keys.partition_point(|before| before < key)
    }
}
