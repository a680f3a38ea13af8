//! The cases that document 01 prints, held against the second program itself.

use crate::second::answer::thin;
use crate::second::brute::Subsets;
use crate::second::calls::{judge_links, thinning, Job};
use crate::second::record::{cuts_of, judge_run, Cut};
use crate::second::text::{asked, raw_input_text, read, refusal_text, result_text, write_input, write_result};
use crate::second::{finish, Refusal};

/// The printed input of document 01.
pub const LLAMAS: &str = "01060002f7
0200010001fc
0200020001fb
0201020001fa
0203040001f6
0203050001f5
0204050001f4
0202030001f8
060008f2
";

const LLAMAS_RESULT: &str = "01060002f7
03000000000138000000000000000000000000000000c4
040000fc
040100fb
040200fa
040303f6
040403f5
040503f4
060008f2
";

/// The same input without the link between the two llamas, by hand.
const LLAMAS_THINNED: &str = "01060002f7
0200010001fc
0200020001fb
0201020001fa
0203040001f6
0203050001f5
0204050001f4
060007f3
";

const TRIANGLES: &[(u8, u8, u8)] = &[(0, 1, 1), (0, 2, 1), (1, 2, 1), (3, 4, 1), (3, 5, 1), (4, 5, 1), (2, 3, 1)];
const STRONG: &[(u8, u8, u8)] = &[(0, 1, 1), (0, 2, 1), (1, 2, 1), (3, 4, 1), (3, 5, 1), (4, 5, 1), (2, 3, 3)];
const PATHS: &[(u8, u8, u8)] = &[(0, 2, 1), (0, 3, 1), (0, 4, 1), (1, 2, 1), (1, 3, 1), (1, 4, 1)];

fn bytes(links: &[(u8, u8, u8)]) -> Vec<u8> {
    links.iter().flat_map(|(a, b, tally)| [*a, *b, 0, *tally]).collect()
}

/// Labels by both ways, and the sum of the weights of a finished run.
fn group(n: u64, k: u64, links: &[(u8, u8, u8)], labels: &[u8], sum: u64) {
    let pit = judge_links(n, k, &bytes(links)).unwrap();
    assert_eq!(pit.labels(), labels);
    assert_eq!(Subsets::new(&pit).labels(), labels);
    let cuts = finish(&pit, Vec::new());
    assert_eq!(judge_run(&pit, &cuts).unwrap().names(pit.n), labels);
    assert_eq!(cuts.iter().map(|cut| u64::from(cut.weight)).sum::<u64>(), sum);
}

fn groups() {
    group(1, 7, &[], &[0], 0);
    group(2, 1, &[], &[0, 1], 0);
    group(2, 3, &[(0, 1, 3)], &[0, 0], 0);
    group(2, 4, &[(0, 1, 3)], &[0, 1], 3);
    group(2, 3, &[(0, 1, 1), (1, 0, 2)], &[0, 0], 0);
    group(6, 1, TRIANGLES, &[0; 6], 0);
    group(6, 2, TRIANGLES, &[0, 0, 0, 3, 3, 3], 1);
    group(6, 3, TRIANGLES, &[0, 1, 2, 3, 4, 5], 7);
    group(6, 2, STRONG, &[0; 6], 0);
    group(6, 3, STRONG, &[0, 1, 2, 2, 4, 5], 6);
    group(5, 2, PATHS, &[0; 5], 0);
    group(5, 3, PATHS, &[0, 1, 2, 3, 4], 6);
}

fn refusals() {
    let number = |n, k, links: &[u8]| judge_links(n, k, links).err().map(|refusal| (refusal.number, refusal.place));
    assert_eq!(number(129, 1, &[]), Some((1, 0)));
    assert_eq!(number(128, 1, &[0; 4 * 4097]), Some((3, 0)));
    assert_eq!(number(2, 1, &[2, 2, 0, 1]), Some((4, 0)));
    assert_eq!(number(3, 1, &[0, 1, 0, 1, 2, 2, 0, 0]), Some((5, 1)));
}

fn texts() {
    let job: Job = asked(LLAMAS.as_bytes()).unwrap();
    let pit = judge_links(job.n, job.k, &job.links).unwrap();
    let cuts = finish(&pit, Vec::new());
    let heap = judge_run(&pit, &cuts).unwrap();
    assert_eq!(result_text(&pit, &cuts, &heap), LLAMAS_RESULT);
    assert_eq!(raw_input_text(job.n, job.k, &job.links, &[]), LLAMAS);
    assert_eq!(write_input(job.n, job.k, &job.links, &[], LLAMAS.len()).unwrap(), LLAMAS);
    assert_eq!(write_input(job.n, job.k, &job.links, &[], LLAMAS.len() - 1), Err(Refusal { number: 20, place: 0 }));
    let record: Vec<u8> = cuts.iter().flat_map(|cut| cut.to_bytes()).collect();
    assert_eq!(write_result(job.n, job.k, &job.links, &record, 65_536).unwrap(), LLAMAS_RESULT);
    assert_eq!(read(LLAMAS.as_bytes(), 6, 0).err(), Some(Refusal { number: 14, place: 0 }));
    let empty = asked(b"").err().unwrap();
    assert_eq!(refusal_text(empty), "07120000e7\n");
}

fn entries() {
    let cut = Cut { pile: 3, weight: 0x0102_0304, side: 1 << 127 | 1 << 8 | 2 };
    let written = cut.to_bytes();
    assert_eq!(written[..7], [3, 1, 2, 3, 4, 2, 1]);
    assert_eq!(written[20], 0x80);
    assert_eq!(cuts_of(&written), [cut]);
}

fn thinned() {
    let links = bytes(TRIANGLES);
    assert_eq!(thinning(6, 2, &links, 7).unwrap(), links[..24]);
    assert_eq!(thinning(6, 2, &links, 6), Err(Refusal { number: 14, place: 0 }));
    assert_eq!(thin(&asked(LLAMAS.as_bytes()).unwrap()).unwrap(), LLAMAS_THINNED);
}

pub fn run() {
    groups();
    refusals();
    texts();
    entries();
    thinned();
}
