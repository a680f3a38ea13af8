//! The tables that the bench prints.

use crate::list::List;
use crate::measure::Times;

pub const SIZES: [usize; 4] = [16, 32, 64, 128];

/// One list and its times.
pub struct Row {
    pub family: String,
    /// The size asked for; a family may use fewer bones (91 all linked are the most that 4,096 links allow).
    pub size: usize,
    pub list: List,
    pub times: Times,
}

pub fn geometric_mean(values: impl Iterator<Item = f64>) -> f64 {
    let (sum, count) = values.fold((0.0, 0), |(sum, count), value| (sum + value.ln(), count + 1));
    (sum / f64::from(count.max(1))).exp()
}

pub fn rows_of<'a>(rows: &'a [Row], family: &'a str, size: usize) -> impl Iterator<Item = &'a Row> + 'a {
    rows.iter().filter(move |row| row.family == family && row.size == size)
}

pub fn families(rows: &[Row]) -> Vec<&str> {
    let mut names: Vec<&str> = Vec::new();
    for row in rows {
        if names.last() != Some(&row.family.as_str()) {
            names.push(&row.family);
        }
    }
    names
}

/// A line for each family and size: means over its lists, and the worst of their ratios.
pub fn print_times(rows: &[Row]) {
    println!(
        "{:<28} {:>4} {:>6} {:>6} {:>7} {:>11} {:>11} {:>7} {:>7} {:>9} {:>9}",
        "family", "n", "k", "links", "groups", "plain ns", "library ns", "ratio", "worst", "fill ns", "lib/fill"
    );
    for family in families(rows) {
        for size in SIZES {
            print_line(family, &rows_of(rows, family, size).collect::<Vec<_>>());
        }
    }
}

fn print_line(family: &str, rows: &[&Row]) {
    let Some(first) = rows.first() else { return };
    let mean = |value: fn(&Times) -> f64| geometric_mean(rows.iter().map(|row| value(&row.times)));
    let worst = rows.iter().map(|row| row.times.ratio()).fold(0.0, f64::max);
    println!(
        "{:<28} {:>4} {:>6} {:>6} {:>7} {:>11.0} {:>11.0} {:>7.2} {:>7.2} {:>9.0} {:>9.1}",
        family,
        first.list.n,
        first.list.k,
        first.list.count(),
        first.times.groups,
        mean(|t| t.plain),
        mean(|t| t.library),
        mean(Times::ratio),
        worst,
        mean(|t| t.fill),
        mean(|t| t.library / t.fill)
    );
}

/// How the time of the library grows, a line a family: at each size the mean time and the mean ratio to the yardstick, and the power of n by which the
/// library and the yardstick grow from the least size to the greatest.
pub fn print_growth(rows: &[Row]) {
    println!("\nhow time grows with n: library ns (ratio to plain), and the power of n, library (plain)");
    println!("{}", growth_line("family", SIZES.map(|size| format!("n {size}")), "power"));
    for family in families(rows) {
        println!("{}", growth_line(family, SIZES.map(|size| cell(rows, family, size)), &powers(rows, family)));
    }
}

fn growth_line(family: &str, cells: [String; SIZES.len()], power: &str) -> String {
    format!("{family:<28} {} {power:>11}", cells.map(|cell| format!("{cell:>16}")).join(" "))
}

/// The mean over the lists of a family at one size, or none if it has no list there.
fn mean(rows: &[Row], family: &str, size: usize, value: fn(&Row) -> f64) -> Option<f64> {
    rows_of(rows, family, size).next()?;
    Some(geometric_mean(rows_of(rows, family, size).map(value)))
}

fn ratio(row: &Row) -> f64 {
    row.times.ratio()
}

fn cell(rows: &[Row], family: &str, size: usize) -> String {
    let at = |value| mean(rows, family, size, value);
    at(|row| row.times.library).zip(at(ratio)).map_or("-".into(), |(time, ratio)| format!("{time:.0} ({ratio:.2})"))
}

fn powers(rows: &[Row], family: &str) -> String {
    let growth = |value| Some(mean(rows, family, SIZES[SIZES.len() - 1], value)? / mean(rows, family, SIZES[0], value)?);
    let power = |value| Some(growth(value)?.ln() / growth(|row| row.list.n as f64)?.ln());
    power(|row| row.times.library).zip(power(|row| row.times.plain)).map_or("-".into(), |(library, plain)| format!("{library:.1} ({plain:.1})"))
}

/// The goals that the bench is read for, with the families and lists that decide them.
pub fn print_summary(rows: &[Row]) {
    println!("\nlists: {}, labels agree on every one", rows.len());
    println!("ratio library / plain, geometric mean: {:.2}", geometric_mean(rows.iter().map(ratio)));
    print_worst_families(rows);
    print_worst_lists(rows);
    let slowest = rows.iter().max_by(|a, b| a.times.library.total_cmp(&b.times.library)).expect("a row");
    println!("slowest list: {:.0} ns, {}", slowest.times.library, slowest.list.name);
    let dense = rows.iter().filter(|row| row.list.count() > 4_000).map(|row| row.times.library / row.times.fill);
    println!("lists of more than 4,000 links, library / filling the table, worst: {:.1}", dense.fold(0.0, f64::max));
}

/// The family of the worst mean ratio, and all others whose mean is above 0.9.
fn print_worst_families(rows: &[Row]) {
    let over_all = |family| geometric_mean(rows.iter().filter(|row| row.family == family).map(ratio));
    let mut worst: Vec<(f64, &str)> = families(rows).into_iter().map(|family| (over_all(family), family)).collect();
    worst.sort_by(|a, b| b.0.total_cmp(&a.0));
    let above = worst.iter().filter(|(mean, _)| *mean > 0.9).count();
    println!("families of a mean ratio above 0.9: {above} of {}; the worst, over all lists and at n = {SIZES:?}:", worst.len());
    for (mean_of_all, family) in &worst[..above.max(1)] {
        let each = SIZES.map(|size| mean(rows, family, size, ratio).map_or("-".into(), |mean| format!("{mean:.2}")));
        println!("  {family:<28} {mean_of_all:.2}: {}", each.join(" "));
    }
}

/// The list of the worst ratio, and all that are above 1.2, a line a family.
fn print_worst_lists(rows: &[Row]) {
    let worst = rows.iter().max_by(|a, b| ratio(a).total_cmp(&ratio(b))).expect("a row");
    println!("worst ratio: {:.2}, {} ({:.0} ns beside {:.0} ns)", ratio(worst), worst.list.name, worst.times.library, worst.times.plain);
    println!("lists of a ratio above 1.2: {}", rows.iter().filter(|row| ratio(row) > 1.2).count());
    for family in families(rows) {
        let above = rows.iter().filter(|row| row.family == family && ratio(row) > 1.2);
        let each: Vec<String> = above.map(|row| format!("{:.2}{}", ratio(row), row.list.name.strip_prefix(family).unwrap_or(""))).collect();
        if !each.is_empty() {
            println!("  {family}: {}", each.join("; "));
        }
    }
}
