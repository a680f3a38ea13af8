//! Grouping over link records beside grouping over bytes: the same links, lent both ways.

use crate::library::{over_bytes, over_records, Link};
use crate::report::{families, geometric_mean, rows_of, Row};
use std::time::{Duration, Instant};

const BATCH: Duration = Duration::from_micros(200);
const ROUNDS: usize = 61;

/// The two forms in which links are lent.
#[derive(Clone, Copy)]
enum Form {
    Bytes,
    Records,
}

const FORMS: [Form; 2] = [Form::Bytes, Form::Records];

/// One list, nanoseconds a call of each form, and the ratio of the two.
struct Both<'a> {
    row: &'a Row,
    bytes: f64,
    records: f64,
    ratio: f64,
}

struct Room {
    labels: [u8; 128],
    space: [u8; 21 * 127],
}

/// The links of a list as records.
fn records_of(links: &[u8]) -> Vec<Link> {
    links.chunks_exact(4).map(|four| Link { a: four[0], b: four[1], tally: u16::from_be_bytes([four[2], four[3]]) }).collect()
}

impl Room {
    fn groups(&mut self, form: Form, row: &Row, records: &[Link]) -> usize {
        let list = &row.list;
        let answer = match form {
            Form::Bytes => over_bytes(list.n, list.k, &list.links, &mut self.labels, &mut self.space),
            Form::Records => over_records(list.n, list.k, records, &mut self.labels, &mut self.space),
        };
        answer.count as usize
    }

    /// Nanoseconds of a call, over so many of them.
    fn time(&mut self, form: Form, row: &Row, records: &[Link], times: u32) -> f64 {
        let start = Instant::now();
        for _ in 0..times {
            std::hint::black_box(self.groups(form, std::hint::black_box(row), std::hint::black_box(records)));
        }
        start.elapsed().as_nanos() as f64 / f64::from(times)
    }

    /// Both forms give the labels and the number of groups that the library gave.
    fn agree(&mut self, row: &Row, records: &[Link]) -> Result<(), String> {
        let mut given = Vec::new();
        for form in FORMS {
            self.labels.fill(255);
            if self.groups(form, row, records) != row.times.groups {
                return Err(format!("{}: another number of groups over records or bytes\n{}", row.list.name, row.list.text()));
            }
            given.push(self.labels);
        }
        if given[0] != given[1] {
            return Err(format!("{}: labels over records and over bytes differ\n{}", row.list.name, row.list.text()));
        }
        Ok(())
    }

    /// In each round a batch of the one and a batch of the other. The times are those of the quickest batches; the ratio is the median of the
    /// rounds' ratios, since a busy moment of the machine meets both batches of a round.
    fn both<'a>(&mut self, row: &'a Row) -> Result<Both<'a>, String> {
        let records = records_of(&row.list.links);
        self.agree(row, &records)?;
        let times = ((BATCH.as_nanos() as f64 / row.times.library) as u32).max(1);
        let mut rounds: Vec<[f64; 2]> = Vec::new();
        for round in 0..ROUNDS {
            let mut each = [0.0; 2];
            for form in [round % 2, 1 - round % 2] {
                each[form] = self.time(FORMS[form], row, &records, times);
            }
            rounds.push(each);
        }
        let quickest = |form: usize| rounds.iter().map(|each| each[form]).fold(f64::INFINITY, f64::min);
        Ok(Both { row, bytes: quickest(0), records: quickest(1), ratio: median(rounds.iter().map(|each| each[1] / each[0]).collect()) })
    }
}

fn median(mut values: Vec<f64>) -> f64 {
    values.sort_by(f64::total_cmp);
    values[values.len() / 2]
}

/// A line for each family at the least and the greatest size: means over its lists, and the worst of their ratios.
pub fn print(rows: &[Row]) -> Result<(), String> {
    let mut room = Room { labels: [0; 128], space: [0; 21 * 127] };
    println!("\ngrouping over link records beside grouping over bytes");
    println!("{:<28} {:>4} {:>6} {:>11} {:>11} {:>7} {:>7}", "family", "n", "links", "bytes ns", "records ns", "ratio", "worst");
    let mut all = Vec::new();
    for family in families(rows) {
        for size in [16, 128] {
            let line: Vec<Both> = rows_of(rows, family, size).map(|row| room.both(row)).collect::<Result<_, _>>()?;
            print_line(family, &line);
            all.extend(line);
        }
    }
    let worst = all.iter().max_by(|a, b| a.ratio.total_cmp(&b.ratio)).ok_or("no lists")?;
    println!("ratio records / bytes, geometric mean over {} lists: {:.2}", all.len(), geometric_mean(all.iter().map(|both| both.ratio)));
    println!("worst ratio: {:.2}, {} ({:.0} ns beside {:.0} ns)", worst.ratio, worst.row.list.name, worst.records, worst.bytes);
    Ok(())
}

fn print_line(family: &str, line: &[Both]) {
    let Some(first) = line.first() else { return };
    println!(
        "{:<28} {:>4} {:>6} {:>11.0} {:>11.0} {:>7.2} {:>7.2}",
        family,
        first.row.list.n,
        first.row.list.count(),
        geometric_mean(line.iter().map(|both| both.bytes)),
        geometric_mean(line.iter().map(|both| both.records)),
        geometric_mean(line.iter().map(|both| both.ratio)),
        line.iter().map(|both| both.ratio).fold(0.0, f64::max)
    );
}
