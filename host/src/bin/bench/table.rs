//! Tables of plain text.

/// Rows under a head. The first column stands at the left, the others at the right.
pub struct Table {
    rows: Vec<Vec<String>>,
}

impl Table {
    pub fn of(head: &[&str]) -> Table {
        let head = head.iter().map(|name| name.to_string()).collect();
        Table { rows: vec![head] }
    }

    pub fn row(&mut self, cells: Vec<String>) {
        self.rows.push(cells);
    }

    fn width(&self, column: usize) -> usize {
        let lengths = self.rows.iter().map(|row| row[column].chars().count());
        lengths.max().unwrap_or(0)
    }

    pub fn print(&self) {
        for row in &self.rows {
            let mut line = String::new();
            for (column, cell) in row.iter().enumerate() {
                let width = self.width(column);
                line += &match column {
                    0 => format!("  {cell:<width$}"),
                    _ => format!("  {cell:>width$}"),
                };
            }
            println!("{}", line.trim_end());
        }
        println!();
    }
}

/// A rate in millions a second.
pub fn millions(count: u64, seconds: f64) -> String {
    format!("{:.1}", count as f64 / seconds / 1e6)
}

/// How many times as long as the other.
pub fn ratio(seconds: f64, of: f64) -> String {
    format!("{:.2}", seconds / of)
}
