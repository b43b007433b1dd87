//! The tables of a page of docs/.

/// A table, with the heading of the section that it stands in.
pub struct Table {
    pub section: String,
    pub columns: Vec<String>,
    pub rows: Vec<Vec<String>>,
}

/// The cells of a table's line.
fn cells(line: &str) -> Option<Vec<String>> {
    let inner = line.strip_prefix('|')?.strip_suffix('|')?;
    let cells = inner.split('|').map(|cell| cell.trim().to_owned());
    Some(cells.collect())
}

/// All tables of the page, in order.
pub fn tables(page: &str) -> Vec<Table> {
    let mut tables: Vec<Table> = Vec::new();
    let mut section = String::new();
    let mut within = false;
    for line in page.lines() {
        if let Some(heading) = line.strip_prefix("## ") {
            section = heading.to_owned();
        }
        match (cells(line), within) {
            (None, _) => within = false,
            (Some(columns), false) => {
                within = true;
                tables.push(Table {
                    section: section.clone(),
                    columns,
                    rows: Vec::new(),
                });
            }
            (Some(row), true) => {
                let table = tables.last_mut().expect("a table has begun");
                if !line.starts_with("|---") {
                    assert_eq!(row.len(), table.columns.len(), "cells of {line}");
                    table.rows.push(row);
                }
            }
        }
    }
    tables
}

/// The tables whose first column is so named.
pub fn tables_by<'a>(tables: &'a [Table], column: &str) -> Vec<&'a Table> {
    let named = tables.iter().filter(|table| table.columns[0] == column);
    let named: Vec<&Table> = named.collect();
    assert!(!named.is_empty(), "no table with the column {column}");
    named
}
