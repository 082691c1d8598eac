//! Lists the smallest explanations of a book: list FILE.

use std::io::Read;
use std::process::ExitCode;

// from include/wizogbare.h
const LONGEST_IMAGE: u64 = 8751;
const WORK_NUMBERS: usize = 16384;
const NODE_BITS: u32 = 32;
const KIND_BITS: u32 = 56;

const BUDGET: u32 = 100_000;
const ROOM: usize = 256;

#[link(name = "embed", kind = "static")]
extern "C" {
    fn wizogbare_list(
        image: *const u8,
        image_length: usize,
        budget: u32,
        sets: *mut u64,
        sets_length: usize,
        work: *mut u32,
        work_length: usize,
    ) -> u64;
}

enum Listing {
    Listed { count: usize, nodes: u32 },
    Refused { number: u32, nodes: u32 },
    Broken { number: u32, place: u32 },
}

/// What the lister answers; the sets are left in `sets`.
fn list(image: &[u8], budget: u32, sets: &mut [u64], work: &mut [u32]) -> Listing {
    // Borrowed slices are what the call asks for: aligned, as long as said, and what is written overlaps nothing.
    let code = unsafe {
        wizogbare_list(image.as_ptr(), image.len(), budget, sets.as_mut_ptr(), sets.len(), work.as_mut_ptr(), work.len())
    };
    let number = (code >> NODE_BITS) as u32 & ((1 << (KIND_BITS - NODE_BITS)) - 1);
    let behind = code as u32;
    match code >> KIND_BITS {
        0 => Listing::Listed { count: number as usize, nodes: behind },
        1 => Listing::Refused { number, nodes: behind },
        _ => Listing::Broken { number, place: behind },
    }
}

fn print_set(place: usize, set: u64) {
    print!("{place}:");
    for abducible in (0..u64::BITS).filter(|j| set >> j & 1 == 1) {
        print!(" {abducible}");
    }
    println!("{}", if set == 0 { " none" } else { "" });
}

/// The image in a file. One byte more than an image may have is read, so that a longer one is refused.
fn image_in(path: &str) -> std::io::Result<Vec<u8>> {
    let mut image = Vec::new();
    std::fs::File::open(path)?.take(LONGEST_IMAGE + 1).read_to_end(&mut image)?;
    Ok(image)
}

fn main() -> ExitCode {
    let Some(path) = std::env::args().nth(1) else {
        eprintln!("usage: list FILE");
        return ExitCode::from(2);
    };
    let image = match image_in(&path) {
        Ok(image) => image,
        Err(error) => {
            eprintln!("{path}: {error}");
            return ExitCode::from(2);
        }
    };
    let mut sets = [0; ROOM];
    let mut work = vec![0; WORK_NUMBERS];
    match list(&image, BUDGET, &mut sets, &mut work) {
        Listing::Broken { number, place } => {
            println!("refused {number} nodes 0 at {place}");
            ExitCode::FAILURE
        }
        Listing::Refused { number, nodes } => {
            println!("refused {number} nodes {nodes}");
            ExitCode::FAILURE
        }
        Listing::Listed { count, nodes } => {
            println!("sets {count} nodes {nodes}");
            for (i, set) in sets[..count].iter().enumerate() {
                print_set(i + 1, *set);
            }
            ExitCode::SUCCESS
        }
    }
}
