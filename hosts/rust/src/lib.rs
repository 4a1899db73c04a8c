//! Safe calls of the proved loss core.
//!
//! ```
//! // Document 01's sample beam, as a list of doubles in units.
//! let list = [
//!     2.0, 1.0, 240e3, 120e3, 0.0, 0.0, 100.0, // kind, steel, strength, jacking stress, deflector, slip, length
//!     2.0, 1.0, 28e6, 3.5e6, 4e6, 3.0, // cure, concrete, Es, Eci, Ec, volume/surface
//!     128.0, 1024.0, 0.0, 1.0, 0.0, // area, inertia, eccentricity, steel area, own-weight moment
//!     24.0, 24.0, 0.0, 0.0, 0.0, 3.0, 0.0, // end of curing, transfer, wobble, curvature, segments, ages, the second path's segments
//!     744.0, 0.0, 8784.0, 0.0, 438_000.0, 0.0, // each age and the moment added then
//! ];
//! let run = stratelyn::run_list(&list).expect("the sample is accepted");
//! assert_eq!(run.rows.len(), 3);
//! assert_eq!(run.last_stress, 91_437_232.0 / 1024.0);
//! ```

use std::fmt;

/// The integrators' page: its Rust is a doc test.
#[cfg(doctest)]
#[doc = include_str!("../../../docs/INTEGRATION.md")]
mod integration {}

mod core {
    extern "C" {
        pub fn stratelyn_run_card(
            card: *const u8, card_len: usize, report: *mut u8, report_len: usize,
            scratch: *mut u8, scratch_len: usize, reply: *mut u8, reply_len: usize,
        ) -> u64;
        pub fn stratelyn_run_list(
            list: *const u8, list_len: usize, report: *mut u8, report_len: usize,
            scratch: *mut u8, scratch_len: usize, reply: *mut u8, reply_len: usize,
        ) -> u64;
    }
}

/// The plain numbers of include/stratelyn.h, by their names there without STRATELYN_.
#[allow(dead_code)]
mod header {
    include!(concat!(env!("OUT_DIR"), "/header.rs"));
}
use header::{BYTES_PER_NUMBER, COLUMNS_PER_FIELD, NUMBERS_PER_AGE, NUMBERS_PER_REPLY};

/// Ticks to a psi.
pub const TICKS_PER_PSI: f64 = header::TICKS_PER_PSI as f64;

/// The most ages that a member has, the bytes of an age in report and scratch, and those of a reply.
pub const MOST_AGES: usize = header::MOST_AGES;
pub const BYTES_PER_AGE: usize = BYTES_PER_NUMBER * NUMBERS_PER_AGE;
pub const REPLY_BYTES: usize = BYTES_PER_NUMBER * NUMBERS_PER_REPLY;

/// The fields of a card's lines 1, 2 and 3, and which one of line 4 counts the ages.
const FIELDS_OF_LINES: [usize; 3] = [7, 6, 5];
const AGES_ON_LINE_4: usize = 6;

/// The fields before the count of ages.
const FIELDS_BEFORE_AGES: usize = FIELDS_OF_LINES[0] + FIELDS_OF_LINES[1] + FIELDS_OF_LINES[2] + AGES_ON_LINE_4 - 1;

/// The entry for a card, over bytes, as C hosts call it. Returns the refusal's number, or 0.
pub fn run_card_bytes(card: &[u8], report: &mut [u8], scratch: &mut [u8], reply: &mut [u8]) -> u64 {
    // Slices are never null and, being borrowed so, do not overlap; the core asks nothing else.
    unsafe {
        core::stratelyn_run_card(
            card.as_ptr(), card.len(), report.as_mut_ptr(), report.len(),
            scratch.as_mut_ptr(), scratch.len(), reply.as_mut_ptr(), reply.len(),
        )
    }
}

/// The entry for a list, over bytes.
pub fn run_list_bytes(list: &[u8], report: &mut [u8], scratch: &mut [u8], reply: &mut [u8]) -> u64 {
    // As above.
    unsafe {
        core::stratelyn_run_list(
            list.as_ptr(), list.len(), report.as_mut_ptr(), report.len(),
            scratch.as_mut_ptr(), scratch.len(), reply.as_mut_ptr(), reply.len(),
        )
    }
}

/// Why a card or a list is refused, and where.
#[derive(Debug, Clone, Copy, PartialEq, Eq)]
pub struct Refusal {
    pub number: u64,
    pub place: u64,
}

impl fmt::Display for Refusal {
    fn fmt(&self, f: &mut fmt::Formatter) -> fmt::Result {
        let place = self.place;
        match (self.number, place) {
            (1, _) => write!(f, "the code in field {place} is not listed"),
            (2, _) => write!(f, "field {place} is out of range"),
            (3, _) => write!(f, "field {place} breaks a rule of hours"),
            (4, 1) => write!(f, "a pretensioned member has no segments"),
            (4, _) => write!(f, "a path has more friction than the core takes: its X is over 1.5"),
            (5, _) => write!(f, "the section is too small for its steel"),
            (6, _) => write!(f, "the section creeps more than the method takes"),
            (7, 0) => write!(f, "less than 1,000 psi are left before the ages"),
            (7, _) => write!(f, "less than 1,000 psi are left after the losses of age {place}"),
            (8, 0) => write!(f, "the list has a wrong length"),
            (8, _) => write!(f, "line {place} of the card is wrong or missing"),
            (9, _) => write!(f, "the double in field {place} cannot be read"),
            (10, 1) => write!(f, "the report has no room"),
            (10, 2) => write!(f, "the scratch has no room"),
            (11, _) => write!(f, "the gain of age {place} lifts the stress above 0.80 of the ultimate strength"),
            (12, _) => write!(f, "the wedge slip reaches further along a duct than the tendon is long"),
            (14, _) => write!(f, "a pretensioned member has no second path"),
            (15, _) => write!(f, "the two paths together are over a foot longer or shorter than the tendon"),
            (number, _) => write!(f, "refusal {number}, place {place}"),
        }
    }
}

impl std::error::Error for Refusal {}

/// The losses of an age, the stress after them and after the gain, and the gain from the moment added then, in psi.
#[derive(Debug, Clone, Copy, PartialEq)]
pub struct Row {
    pub creep: f64,
    pub shrinkage: f64,
    pub relaxation: f64,
    pub stress: f64,
    pub gain: f64,
}

/// An accepted run, in psi. The slip is the drop of stress at the section, 0 where friction lets the wedge slip die out before it. Of two
/// paths, friction and slip are those of the one with the larger stress after slip.
#[derive(Debug, Clone, PartialEq)]
pub struct Run {
    pub friction: f64,
    pub slip: f64,
    pub deflector: f64,
    pub early_relaxation: f64,
    pub shortening: f64,
    pub stress_before_ages: f64,
    pub rows: Vec<Row>,
    pub last_stress: f64,
}

fn number(bytes: &[u8], at: usize) -> u64 {
    u64::from_le_bytes(bytes[BYTES_PER_NUMBER * at..][..BYTES_PER_NUMBER].try_into().expect("eight bytes"))
}

fn psi(ticks: u64) -> f64 {
    ticks as f64 / TICKS_PER_PSI
}

/// A run with buffers for every member. `ages` says how many ages the member has, where it is accepted.
fn run(call: impl Fn(&mut [u8], &mut [u8], &mut [u8]) -> u64, ages: impl Fn() -> usize) -> Result<Run, Refusal> {
    let mut report = [0; MOST_AGES * BYTES_PER_AGE];
    let mut scratch = report;
    let mut reply = [0; REPLY_BYTES];
    let refused = call(&mut report, &mut scratch, &mut reply);
    if refused != 0 {
        return Err(Refusal { number: refused, place: number(&reply, 0) });
    }
    let rows = report.chunks(BYTES_PER_AGE).take(ages()).map(|row| Row {
        creep: psi(number(row, 0)),
        shrinkage: psi(number(row, 1)),
        relaxation: psi(number(row, 2)),
        stress: psi(number(row, 3)),
        gain: psi(number(row, 4)),
    });
    Ok(Run {
        friction: psi(number(&reply, 1)),
        slip: psi(number(&reply, 2)),
        deflector: psi(number(&reply, 3)),
        early_relaxation: psi(number(&reply, 4)),
        shortening: psi(number(&reply, 5)),
        stress_before_ages: psi(number(&reply, 6)),
        rows: rows.collect(),
        last_stress: f64::from_bits(number(&reply, 7)),
    })
}

/// How many ages an accepted card has. A line feed ends each line before.
fn ages_of_card(card: &[u8]) -> usize {
    let start = COLUMNS_PER_FIELD * FIELDS_BEFORE_AGES + FIELDS_OF_LINES.len();
    std::str::from_utf8(&card[start..start + COLUMNS_PER_FIELD]).ok().and_then(|text| text.trim().parse().ok()).unwrap_or(0)
}

/// Runs a card, as text. A blank slip reads 384 ticks, 3/8 inch; where the wedges draw in 1/4 inch, as older ones do, write 256.
pub fn run_card(card: &[u8]) -> Result<Run, Refusal> {
    run(|report, scratch, reply| run_card_bytes(card, report, scratch, reply), || ages_of_card(card))
}

/// Runs a list of doubles, in units: feet, inches, psi, inch-pounds, hours.
pub fn run_list(list: &[f64]) -> Result<Run, Refusal> {
    let bytes: Vec<u8> = list.iter().flat_map(|x| x.to_bits().to_le_bytes()).collect();
    run(|report, scratch, reply| run_list_bytes(&bytes, report, scratch, reply), || list[FIELDS_BEFORE_AGES] as usize)
}
