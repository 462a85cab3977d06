//! The table: one row an operation and a size, as text and as CSV.
use std::{fs, io};

use crate::measure::{Side, best};

pub struct Row {
    name: &'static str,
    /// Nodes, entries of the map, or counts.
    n: usize,
    ours: f64,
    rust: Option<f64>,
    plain: f64,
}

impl Row {
    pub fn new(name: &'static str, n: usize) -> Self {
        Self { name, n, ours: 0.0, rust: None, plain: 0.0 }
    }

    fn text(&self) -> String {
        let rust = self.rust.map_or(["-".into(), "-".into()], |rust| {
            [format!("{rust:.2}"), format!("{:.1}", rust / self.ours)]
        });
        let over = self.ours / self.plain;
        format!(
            "{:<17} {:>8} {:>9.3} {:>9} {:>9.3} {:>10} {:>11.2}",
            self.name, self.n, self.ours, rust[0], self.plain, rust[1], over
        )
    }

    fn csv(&self) -> String {
        let rust = self.rust.map_or(String::new(), |rust| format!("{rust:.4}"));
        format!("\"{}\",{},{:.4},{rust},{:.4}", self.name, self.n, self.ours, self.plain)
    }
}

pub struct Table {
    rows: Vec<Row>,
    /// Starts of the names of the operations that are wanted; all if there are none.
    wanted: Vec<String>,
}

impl Table {
    pub fn new(wanted: Vec<String>) -> Self {
        println!(
            "{:<17} {:>8} {:>9} {:>9} {:>9} {:>10} {:>11}",
            "operation", "size", "ours", "Rust", "plain", "Rust/ours", "ours/plain"
        );
        Self { rows: Vec::new(), wanted }
    }

    fn wants(&self, row: &Row) -> bool {
        self.wanted.is_empty() || self.wanted.iter().any(|name| row.name.starts_with(&name[..]))
    }

    /// Ours, the published Rust, the plain read; each in ns for one node, entry or count.
    pub fn add(&mut self, row: Row, mut sides: [Side; 3]) {
        if !self.wants(&row) {
            return;
        }
        let ns = best(&mut sides);
        let each = |k: usize| ns[k] / row.n as f64;
        self.push(Row { ours: each(0), rust: Some(each(1)), plain: each(2), ..row });
    }

    /// Ours and the plain read.
    pub fn add_alone(&mut self, row: Row, mut sides: [Side; 2]) {
        if !self.wants(&row) {
            return;
        }
        let ns = best(&mut sides);
        let each = |k: usize| ns[k] / row.n as f64;
        self.push(Row { ours: each(0), plain: each(1), ..row });
    }

    fn push(&mut self, row: Row) {
        println!("{}", row.text());
        self.rows.push(row);
    }

    pub fn store(&self, path: &str) -> io::Result<()> {
        let lines = self.rows.iter().map(|row| row.csv() + "\n").collect::<String>();
        fs::write(path, format!("operation,size,ours_ns,rust_ns,plain_ns\n{lines}"))
    }
}
