//! The calls of the library under test, as include/bones.h declares them.

use crate::list::List;

#[repr(C)]
pub struct Answer {
    pub number: u32,
    pub place: u32,
    pub count: u32,
    pub finished: u32,
}

#[repr(C)]
struct Count {
    number: u32,
    place: u32,
    count: u32,
}

#[repr(C)]
struct Input {
    number: u32,
    place: u32,
    n: u32,
    k: u32,
    links: u32,
    cuts: u32,
}

/// A link record.
#[repr(C)]
#[derive(Clone, Copy)]
pub struct Link {
    pub a: u8,
    pub b: u8,
    pub tally: u16,
}

pub const NO_LINK: Link = Link { a: 0, b: 0, tally: 0 };

extern "C" {
    fn bones_grouping(
        n: u64,
        k: u64,
        links: *const u8,
        links_length: usize,
        record: *const u8,
        record_length: usize,
        labels: *mut u8,
        labels_length: usize,
        space: *mut u8,
        space_length: usize,
    ) -> Answer;
    fn bones_grouping_records(
        n: u64,
        k: u64,
        links: *const Link,
        links_count: usize,
        record: *const u8,
        record_length: usize,
        labels: *mut u8,
        labels_length: usize,
        space: *mut u8,
        space_length: usize,
    ) -> Answer;
    fn bones_read(text: *const u8, text_length: usize, links: *mut Link, links_count: usize, space: *mut u8, space_length: usize) -> Input;
    fn bones_write_input(
        n: u64,
        k: u64,
        links: *const Link,
        links_count: usize,
        record: *const u8,
        record_length: usize,
        text: *mut u8,
        text_length: usize,
    ) -> Count;
}

// In each call below every pointer comes from a slice whose length goes with it, and the slices lent for writing are different ones.

/// Groups n bones at k over links lent as bytes, from an empty record.
pub fn over_bytes(n: usize, k: usize, links: &[u8], labels: &mut [u8], space: &mut [u8]) -> Answer {
    unsafe {
        bones_grouping(
            n as u64,
            k as u64,
            links.as_ptr(),
            links.len(),
            std::ptr::null(),
            0,
            labels.as_mut_ptr(),
            labels.len(),
            space.as_mut_ptr(),
            space.len(),
        )
    }
}

/// The same over links lent as records.
pub fn over_records(n: usize, k: usize, links: &[Link], labels: &mut [u8], space: &mut [u8]) -> Answer {
    unsafe {
        bones_grouping_records(
            n as u64,
            k as u64,
            links.as_ptr(),
            links.len(),
            std::ptr::null(),
            0,
            labels.as_mut_ptr(),
            labels.len(),
            space.as_mut_ptr(),
            space.len(),
        )
    }
}

/// Reads an input text and writes one of what it held; gives the bytes written, nought where either call refused.
pub fn again(text: &[u8], links: &mut [Link], space: &mut [u8], out: &mut [u8]) -> usize {
    let read = unsafe { bones_read(text.as_ptr(), text.len(), links.as_mut_ptr(), links.len(), space.as_mut_ptr(), space.len()) };
    if read.number != 0 {
        return 0;
    }
    let (links, record) = (&links[..read.links as usize], &space[..21 * read.cuts as usize]);
    let wrote = unsafe {
        bones_write_input(
            u64::from(read.n),
            u64::from(read.k),
            links.as_ptr(),
            links.len(),
            record.as_ptr(),
            record.len(),
            out.as_mut_ptr(),
            out.len(),
        )
    };
    if wrote.number != 0 { 0 } else { wrote.count as usize }
}

/// Groups a list; gives the number of groups.
pub fn grouping(list: &List, labels: &mut [u8], space: &mut [u8]) -> usize {
    let answer = over_bytes(list.n, list.k, &list.links, labels, space);
    if answer.number != 0 || answer.finished != 1 {
        panic!("{}: refused with {} at {}\n{}", list.name, answer.number, answer.place, list.text());
    }
    answer.count as usize
}
