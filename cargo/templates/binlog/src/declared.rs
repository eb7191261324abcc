//! What users of Rust expect of files of columns: `FromStr`, and the facts of a table map's columns in one call. By hand, over
//! `column_files` and `binlog_declared_columns`.
use crate::binlog_columns::ColumnError;
use crate::binlog_declared_columns::table_facts;
use crate::binlog_optional_metadata::{TableFacts, TableMapColumns};
use crate::binlog_rows::TableMapEvent;
use crate::column_files::{DeclaredTables, ReadTablesError, read_tables};
use crate::memory::AllocError;
use std::str::FromStr;
use thiserror::Error;

/// As [`read_tables`](crate::columns::read_tables) reads the bytes of a file.
///
/// # Example
///
/// ```
/// use binlog::columns::DeclaredTables;
///
/// let head = "TABLE_SCHEMA\tTABLE_NAME\tORDINAL_POSITION\tCOLUMN_NAME\tCOLUMN_TYPE\tCHARACTER_SET_NAME\n";
/// let tables: DeclaredTables = format!("{head}shop\torders\t1\tid\tint unsigned\tNULL\n").parse()?;
/// assert_eq!(tables.columns(b"shop", b"orders").unwrap()[0].name_text(), Some("id"));
/// let error = format!("{head}shop\torders\t2\tid\tint\tNULL\n").parse::<DeclaredTables>().unwrap_err();
/// assert_eq!(error.to_string(), "line 2, column 13: a column whose position isn't the next one of its table");
/// # Ok::<(), binlog::columns::ReadTablesError>(())
/// ```
impl FromStr for DeclaredTables {
    type Err = ReadTablesError;

    fn from_str(text: &str) -> Result<Self, ReadTablesError> {
        read_tables(text.as_bytes())
    }
}

/// What a table map and files of columns state of the columns of a table.
#[derive(Debug, PartialEq, Eq)]
pub struct KnownFacts<'a> {
    /// What is known of each column, in their order.
    pub table: TableFacts<'a>,
    /// The index of the first column that contradicts the file that declares the table, counted from 0. Nothing of the file counts
    /// then.
    pub contradiction: Option<usize>,
}

/// Why the facts of the columns of a table map aren't known.
#[derive(Debug, Clone, Copy, PartialEq, Eq, Error)]
pub enum TableFactsError {
    /// A type, or its metadata, isn't one.
    #[error(transparent)]
    Column(#[from] ColumnError),
    /// An allocation failed.
    #[error(transparent)]
    Memory(#[from] AllocError),
}

impl TableMapEvent<'_> {
    /// What is known of the columns of the table: what the table map states, and what the last of these files that has the table
    /// declares besides, as [`table_facts`](crate::columns::table_facts) says. What the table map states depends on the server
    /// that wrote the log ([`is_maria_log`](crate::mariadb::is_maria_log)).
    ///
    /// # Errors
    ///
    /// - [`TableFactsError::Column`] if the types of the columns, or their metadata, aren't right.
    /// - [`TableFactsError::Memory`] if an allocation fails.
    pub fn facts<'a>(
        &'a self,
        files: &'a [DeclaredTables],
        is_maria_log: bool,
    ) -> Result<KnownFacts<'a>, TableFactsError> {
        let (table, contradiction) = table_facts(
            files,
            self.database_name_raw(),
            self.table_name_raw(),
            self.table_columns()?,
            self.optional_metadata_raw(),
            is_maria_log,
        )?;
        Ok(KnownFacts {
            table,
            contradiction,
        })
    }
}
