//! Compares Coppernudge with document 000, and writes down document 000's answers for tests that run without Rust.
//!
//! This crate takes the place of the crate that document 000 was cut from: its files are modules at the root (build.rs),
//! the modules that they name and that are absent there stand in `absent/`.

include!(concat!(env!("OUT_DIR"), "/document.rs"));

#[path = "absent/char_width.rs"]
mod char_width;
#[path = "absent/cmp_op.rs"]
pub mod cmp_op;
#[path = "absent/container_error.rs"]
#[allow(dead_code)]
mod container_error;
#[path = "absent/fb_type.rs"]
pub mod fb_type;
#[path = "absent/id_types.rs"]
mod id_types;
#[path = "absent/policy.rs"]
mod policy;
#[path = "absent/string_header.rs"]
mod string_header;

mod balanced;
#[cfg(feature = "bench")]
mod bench;
#[cfg(feature = "bench")]
mod bench_file;
#[cfg(feature = "bench")]
mod bench_pool;
#[cfg(feature = "bench")]
mod bench_stack;
mod bodies;
mod cases;
mod compare;
mod differences;
mod export;
mod file;
mod file_format;
mod files;
mod machine;
mod observe;
mod pipe;
mod pool;
mod pool_program;
mod pool_refused;
mod pools;
mod program;
mod programs;
mod random;
mod reading;
mod record;
mod record_pool;
mod record_stack;
mod refused;
mod runs;
mod stack;
mod tables;

use char_width::CharWidth;
use container_error::ContainerError;
use std::path::Path;
use std::process::ExitCode;
use string_header::STRING_HEADER_BYTES;

/// What a command prints, or why it stopped.
pub type Report = Result<String, String>;

const USAGE: &str = "usage: differential COMMAND
  export [DIR]                      code-list.txt and code-list.bin
  tables [DIR]                      tables.txt and tables.bin
  record SEED COUNT [DIR]           bodies.bin and targets.bin
  record-stack SEED COUNT [DIR]     programs.bin
  record-pool SEED COUNT [DIR]      pools.bin
  compare SEED COUNT -- DRIVER..    the same questions to document 000 and to a driver (tests/driver/PROTOCOL.md)
  stack SEED COUNT [--exhaustive3] -- DRIVER..
                                    the stack check of document 000 and of a driver, on random programs and on every body
                                    of up to two bytes, or three
  pool SEED COUNT -- DRIVER..       the pool check of document 000 and of a driver, on random programs and on every pair of
                                    instructions
  file SEED COUNT -- DRIVER..       the bench file's reader and writer of this crate and of a driver, on random files
  machine SEED RUNS                 runs of 01's depth machine over random programs that document 000's checks accept, and
                                    over such that they do not
  differences                       what document 000 says on the inputs of docs/DIFFERENCES.md
  bench [file | pool]               timings, all, or of the bench file or the pool check (built with --features bench)
DIR is crates/replay/data where it is not given.";

fn main() -> ExitCode {
    let words: Vec<String> = std::env::args().skip(1).collect();
    let words: Vec<&str> = words.iter().map(String::as_str).collect();
    match run(&words) {
        Ok(report) => {
            print!("{report}");
            ExitCode::SUCCESS
        }
        Err(why) => {
            eprintln!("{}", why.trim_end());
            ExitCode::FAILURE
        }
    }
}

fn run(words: &[&str]) -> Report {
    const DATA: &str = "crates/replay/data";
    match words {
        ["export"] => export::run(Path::new(DATA)),
        ["export", dir] => export::run(Path::new(dir)),
        ["tables"] => tables::run(Path::new(DATA)),
        ["tables", dir] => tables::run(Path::new(dir)),
        ["record", seed, count] => record::run(number(seed)?, number(count)?, Path::new(DATA)),
        ["record", seed, count, dir] => record::run(number(seed)?, number(count)?, Path::new(dir)),
        ["compare", seed, count, "--", driver @ ..] if !driver.is_empty() => {
            compare::run(number(seed)?, number(count)?, driver)
        }
        ["record-stack", seed, count] => record_stack::run(number(seed)?, number(count)?, Path::new(DATA)),
        ["record-stack", seed, count, dir] => record_stack::run(number(seed)?, number(count)?, Path::new(dir)),
        ["stack", seed, count, "--", driver @ ..] if !driver.is_empty() => {
            stack::run(number(seed)?, number(count)?, false, driver)
        }
        ["stack", seed, count, "--exhaustive3", "--", driver @ ..] if !driver.is_empty() => {
            stack::run(number(seed)?, number(count)?, true, driver)
        }
        ["record-pool", seed, count] => record_pool::run(number(seed)?, number(count)?, Path::new(DATA)),
        ["record-pool", seed, count, dir] => record_pool::run(number(seed)?, number(count)?, Path::new(dir)),
        ["pool", seed, count, "--", driver @ ..] if !driver.is_empty() => {
            pool::run(number(seed)?, number(count)?, driver)
        }
        ["file", seed, count, "--", driver @ ..] if !driver.is_empty() => {
            file::run(number(seed)?, number(count)?, driver)
        }
        ["machine", seed, count] => runs::run(number(seed)?, number(count)?),
        ["differences"] => differences::run(),
        #[cfg(feature = "bench")]
        ["bench"] => bench::run(),
        #[cfg(feature = "bench")]
        ["bench", "file"] => bench::file(),
        #[cfg(feature = "bench")]
        ["bench", "pool"] => bench_pool::run(),
        _ => Err(USAGE.into()),
    }
}

fn number(word: &str) -> Result<u64, String> {
    word.parse().map_err(|_| format!("{word} is not a number\n{USAGE}"))
}

/// Writes one file of recorded answers.
fn write(dir: &Path, name: &str, bytes: &[u8]) -> Result<(), String> {
    let path = dir.join(name);
    std::fs::write(&path, bytes).map_err(|why| format!("{}: {why}", path.display()))
}
