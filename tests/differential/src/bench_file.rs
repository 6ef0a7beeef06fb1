//! `bench`, third part: times of reading a bench file of the greatest length, the library's beside those of `file_format`, in one process and over
//! the same files and columns.

use crate::bench::contenders;
use crate::file_format::{
    self, Columns, Refused, Sizes, Wrote, CODE, DESCRIPTORS, ENTRIES, FUNCTIONS, LIMITS, LONGEST, ROWS,
};
use crate::random::Random;
use crate::Report;
use std::hint::black_box;

const ROUNDS: usize = 5_001;

extern "C" {
    // Offsets and lengths are the machine's numbers, which have 64 bits on both processors.
    fn file_probe_read(
        answer: *mut u32,
        answer_n: usize,
        list_ids: *mut u16,
        list_ids_n: usize,
        list_counts: *mut u16,
        list_counts_n: usize,
        list_flags: *mut u16,
        list_flags_n: usize,
        function_ids: *mut u16,
        function_ids_n: usize,
        parameters: *mut u16,
        parameters_n: usize,
        maxima: *mut u16,
        maxima_n: usize,
        offsets: *mut u64,
        offsets_n: usize,
        lengths: *mut u64,
        lengths_n: usize,
        type_ids: *mut u16,
        type_ids_n: usize,
        descriptor_functions: *mut u16,
        descriptor_functions_n: usize,
        entries: *mut u16,
        entries_n: usize,
        code: *mut u8,
        code_n: usize,
        file: *const u8,
        file_n: usize,
    ) -> u32;
}

fn library(file: &[u8], c: &mut Columns, answer: &mut [u32; 8]) -> u32 {
    // SAFETY: all slices are whole, and the function keeps none.
    unsafe {
        file_probe_read(
            answer.as_mut_ptr(),
            answer.len(),
            c.list_ids.as_mut_ptr(),
            c.list_ids.len(),
            c.list_counts.as_mut_ptr(),
            c.list_counts.len(),
            c.list_flags.as_mut_ptr(),
            c.list_flags.len(),
            c.function_ids.as_mut_ptr(),
            c.function_ids.len(),
            c.parameters.as_mut_ptr(),
            c.parameters.len(),
            c.maxima.as_mut_ptr(),
            c.maxima.len(),
            c.offsets.as_mut_ptr(),
            c.offsets.len(),
            c.lengths.as_mut_ptr(),
            c.lengths.len(),
            c.type_ids.as_mut_ptr(),
            c.type_ids.len(),
            c.descriptor_functions.as_mut_ptr(),
            c.descriptor_functions.len(),
            c.entries.as_mut_ptr(),
            c.entries.len(),
            c.code.as_mut_ptr(),
            c.code.len(),
            file.as_ptr(),
            file.len(),
        )
    }
}

/// The second reading with the library's promise, that a refused file leaves the lent columns as they were: into columns of its own,
/// which it keeps, and from there into those.
fn kept_apart(file: &[u8], own: &mut Columns, into: &mut Columns) -> Result<Sizes, Refused> {
    let sizes = file_format::read(file, own)?;
    let Sizes { rows, functions, descriptors, entries, code, .. } = sizes;
    into.list_ids[..rows].copy_from_slice(&own.list_ids[..rows]);
    into.list_counts[..rows].copy_from_slice(&own.list_counts[..rows]);
    into.list_flags[..rows].copy_from_slice(&own.list_flags[..rows]);
    into.function_ids[..functions].copy_from_slice(&own.function_ids[..functions]);
    into.parameters[..functions].copy_from_slice(&own.parameters[..functions]);
    into.maxima[..functions].copy_from_slice(&own.maxima[..functions]);
    into.offsets[..functions].copy_from_slice(&own.offsets[..functions]);
    into.lengths[..functions].copy_from_slice(&own.lengths[..functions]);
    into.type_ids[..descriptors].copy_from_slice(&own.type_ids[..descriptors]);
    into.descriptor_functions[..descriptors].copy_from_slice(&own.descriptor_functions[..descriptors]);
    into.entries[..entries].copy_from_slice(&own.entries[..entries]);
    into.code[..code].copy_from_slice(&own.code[..code]);
    Ok(sizes)
}

/// A program whose file has the greatest length: so many of its numbers have three bytes, at random places, the others two.
fn program(rows: usize, others: [usize; 3], code: usize, three: usize) -> Columns {
    let [functions, descriptors, entries] = others;
    let sizes = Sizes { pool: 0, rows, functions, descriptors, entries, code };
    let mut made = Columns::of(sizes.cells());
    let mut random = Random::new(1);
    let mut left = rows * 3 + functions * 5 + descriptors * 2 + entries;
    let mut three = three;
    let mut draw = || {
        let high = random.below(left) < three;
        left -= 1;
        three -= usize::from(high);
        if high {
            random.between(16_384, 65_535) as u16
        } else {
            random.between(128, 16_383) as u16
        }
    };
    let words = [
        &mut made.list_ids,
        &mut made.list_counts,
        &mut made.list_flags,
        &mut made.function_ids,
        &mut made.parameters,
        &mut made.maxima,
        &mut made.type_ids,
        &mut made.descriptor_functions,
        &mut made.entries,
    ];
    for column in words {
        column.iter_mut().for_each(|cell| *cell = draw());
    }
    for column in [&mut made.offsets, &mut made.lengths] {
        column.iter_mut().for_each(|cell| *cell = draw().into());
    }
    made
}

fn reading(name: &str, program: &Columns) -> Report {
    let Wrote::File(file) = file_format::write(0, program, LONGEST) else {
        return Err(format!("{name}: the program has no file"));
    };
    let [mut lent, mut straight, mut own, mut apart] = [(); 4].map(|()| Columns::of(LIMITS));
    let mut answer = [0; 8];
    let number = library(&file, &mut lent, &mut answer);
    let read = file_format::read(&file, &mut straight);
    let again = kept_apart(&file, &mut own, &mut apart);
    if file.len() != LONGEST || number != 0 || read.is_err() || again != read || lent != straight || lent != apart {
        return Err(format!("{name}: {} bytes, {number}, or the contenders differ", file.len()));
    }
    let [mut first, mut second, mut third] = contenders();
    for _ in 0..ROUNDS {
        first.take(|| library(black_box(&file), &mut lent, &mut answer));
        let _ = second.take(|| kept_apart(black_box(&file), &mut own, &mut apart));
        let _ = third.take(|| file_format::read(black_box(&file), &mut straight));
    }
    let [a, b, c] = [first.columns(1.0), second.columns(1.0), third.columns(1.0)];
    Ok(format!("{name:<28} {a}  {b}  {c}\n"))
}

pub fn run(heads: impl Fn([&str; 3]) -> String) -> Report {
    let mut report = format!("reading a bench file of {LONGEST} bytes, microseconds, {ROUNDS} runs\n");
    report += &heads(["file_probe_read", "Rust, kept apart", "Rust, straight in"]);
    // 1 + 2 + 5,916 x 9 + 3 + 2 bytes, and the code.
    report += &reading("three bytes each", &program(5_916, [0; 3], LONGEST - 8 - 5_916 * 9, 5_916 * 3))?;
    // Every table full: 10 bytes of pool and counts, and 19,616 numbers.
    let full = ROWS * 3 + FUNCTIONS * 5 + DESCRIPTORS * 2 + ENTRIES;
    let three = LONGEST - 10 - CODE - 2 * full;
    report += &reading("every table full, mixed", &program(ROWS, [FUNCTIONS, DESCRIPTORS, ENTRIES], CODE, three))?;
    Ok(report)
}
