//! Tables: columns aligned, no space at the end of a line.

/// A table.
pub struct Table {
    head: Vec<String>,
    /// Columns whose cells stand at the right.
    right: Vec<usize>,
    rows: Vec<Vec<String>>,
}

impl Table {
    /// An empty table with these heads, if any, and some columns at the right.
    pub fn new(head: &[&str], right: &[usize]) -> Table {
        let head = head.iter().map(|text| (*text).to_string()).collect();
        Table { head, right: right.to_vec(), rows: Vec::new() }
    }

    /// Adds a row; the cells that it lacks are empty.
    pub fn row(&mut self, cells: Vec<String>) {
        self.rows.push(cells);
    }

    /// The table's lines, its heads painted by this function.
    pub fn print(&self, paint: impl Fn(&str) -> String) -> String {
        let all = || self.rows.iter().chain([&self.head]);
        let columns = all().map(Vec::len).max().unwrap_or(0);
        let length =
            |row: &Vec<String>, column: usize| row.get(column).map_or(0, |cell| cell.chars().count());
        let widths: Vec<usize> =
            (0..columns).map(|column| all().map(|row| length(row, column)).max().unwrap_or(0)).collect();
        let mut text = String::new();
        if !self.head.is_empty() {
            text += &paint(&self.line(&self.head, &widths));
            text.push('\n');
        }
        for row in &self.rows {
            text += &self.line(row, &widths);
            text.push('\n');
        }
        text
    }

    fn line(&self, row: &[String], widths: &[usize]) -> String {
        let cells = row.iter().zip(widths).enumerate().map(|(column, (cell, width))| {
            match self.right.contains(&column) {
                true => format!("{cell:>width$}"),
                false => format!("{cell:width$}"),
            }
        });
        cells.collect::<Vec<_>>().join("  ").trim_end().to_string()
    }
}
