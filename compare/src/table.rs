//! The table of rows by calls: how often each call was carried out, and refused by each row of the refusal table.

use crate::call::{Call, CALLS};

/// Carried out, and the rows 1 to 20.
const ROWS: usize = 21;

/// A cell that was met less often says nothing.
const ENOUGH: u64 = 2;

#[derive(Default)]
pub struct Table {
    met: [[u64; ROWS]; CALLS.len()],
}

impl Table {
    /// One more call, row 0 where it was carried out.
    pub fn count(&mut self, call: Call, row: usize) {
        self.met[call as usize][row] += 1;
    }

    fn met(&self, call: Call, row: usize) -> u64 {
        self.met[call as usize][row]
    }

    /// Rows that the call can be met in, and hardly was.
    pub fn unmet(&self, call: Call) -> Vec<usize> {
        (0..ROWS).filter(|row| can_be(call, *row) && self.met(call, *row) < ENOUGH).collect()
    }

    /// Rows that the call cannot be met in, and was.
    pub fn strays(&self, call: Call) -> Vec<usize> {
        (0..ROWS).filter(|row| !can_be(call, *row) && self.met(call, *row) > 0).collect()
    }

    /// One line a call, one column a row.
    pub fn text(&self, calls: &[Call]) -> String {
        let head: Vec<String> = (0..ROWS).map(|row| row.to_string()).collect();
        let lines: Vec<Vec<String>> = calls.iter().map(|call| (0..ROWS).map(|row| self.cell(*call, row)).collect()).collect();
        let width = |row: usize| lines.iter().chain([&head]).map(|line| line[row].len()).max().unwrap_or(0);
        let widths: Vec<usize> = (0..ROWS).map(width).collect();
        let mut text = written("row", &head, &widths);
        for (call, line) in calls.iter().zip(&lines) {
            text += &written(call.name(), line, &widths);
        }
        text
    }

    fn cell(&self, call: Call, row: usize) -> String {
        match self.met(call, row) {
            0 if !can_be(call, row) => "-".to_string(),
            met => met.to_string(),
        }
    }
}

fn can_be(call: Call, row: usize) -> bool {
    row == 0 || call.may_refuse(row)
}

fn written(name: &str, cells: &[String], widths: &[usize]) -> String {
    let cells: String = cells.iter().zip(widths).map(|(cell, width)| format!(" {cell:>width$}")).collect();
    format!("{name:16}{cells}\n")
}
