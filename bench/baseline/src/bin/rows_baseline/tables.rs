//! The columns of the newest table map of each id.

use crate::columns::{columns, Column};
use crate::rows::TableMap;

/// The columns of a table, and what its map said of them.
struct Table {
    id: u64,
    types: Box<[u8]>,
    metadata: Box<[u8]>,
    /// None if they are refused.
    columns: Option<Box<[Column]>>,
}

/// The newest table of each id, in rising order of the ids.
#[derive(Default)]
pub struct Tables {
    tables: Vec<Table>,
}

impl Tables {
    /// A map of the same columns as the one of its id isn't looked at again.
    #[inline]
    pub fn keep(&mut self, map: &TableMap) {
        match self.tables.binary_search_by_key(&map.id, |table| table.id) {
            Ok(at) if self.tables[at].is(map) => {}
            Ok(at) => self.tables[at] = Table::of(map),
            Err(at) => self.tables.insert(at, Table::of(map)),
        }
    }

    /// None if there is no table of this id, or its columns are refused.
    #[inline]
    pub fn columns(&self, id: u64) -> Option<&[Column]> {
        let at = self.tables.binary_search_by_key(&id, |table| table.id).ok()?;
        self.tables[at].columns.as_deref()
    }

    #[cold]
    pub fn clear(&mut self) {
        self.tables.clear();
    }
}

impl Table {
    #[cold]
    fn of(map: &TableMap) -> Self {
        Table {
            id: map.id,
            types: map.types.into(),
            metadata: map.metadata.into(),
            columns: columns(map.types, map.metadata),
        }
    }

    #[inline]
    fn is(&self, map: &TableMap) -> bool {
        *self.types == *map.types && *self.metadata == *map.metadata
    }
}
