//! Runs a second on one core: the proved core through its C entries beside the independent implementation of the hosts' tests, called
//! the same way over bytes, in one run, interleaved. Buffers are not cleared between runs. That implementation is written to be read:
//! it allocates as it goes and reckons with 128 bits, so the ratio is no measure of the core's speed.
//!
//! `bench` prints medians; `bench count ENTRY MEMBER RUNS` only runs the core, for a tool that counts instructions.

#[path = "../../hosts/rust/tests/paper/mod.rs"]
mod paper;

use paper::Field::*;
use paper::{age, in_ticks, lines, read_card, read_list, segment, Field, Member, OfSegment, Paper, Refusal, Run};
use paper::{BEND, BLANK_SLIP, COLUMNS, HEAD_FIELDS, LIFE, MOST_AGES, MOST_SEGMENTS, PARABOLA, SEGMENT_FIELDS, STRAIGHT, TICKS};
use std::hint::black_box;
use std::time::Instant;
use stratelyn::{BYTES_PER_AGE, REPLY_BYTES};

const ROUNDS: usize = 41;
const BYTES_OF_NUMBER: usize = 8;
const REPORT_BYTES: usize = stratelyn::MOST_AGES * BYTES_PER_AGE;

/// Document 01's sample beam.
fn sample() -> Member {
    read_card(include_bytes!("../../crates/report/stdin")).expect("the sample is accepted")
}

/// The segments of a path with as many as there may be, its parabolas so long.
fn path(parabola: u64) -> Vec<[u64; SEGMENT_FIELDS]> {
    let kinds = [segment(STRAIGHT, 2048, 0), segment(PARABOLA, parabola, 512), segment(BEND, 0, 10)];
    kinds.into_iter().cycle().take(MOST_SEGMENTS as usize).collect()
}

/// A member with the most ages, a first path and perhaps a second, whose slip dies out along them.
fn post_tensioned(first: &[[u64; SEGMENT_FIELDS]], second: &[[u64; SEGMENT_FIELDS]], length: u64, wobble: u64) -> Member {
    let Member(mut f) = sample();
    f.truncate(HEAD_FIELDS);
    let mut set = |field: Field, number: u64| f[field.at()] = number;
    set(JackingStress, 180_000);
    set(Slip, BLANK_SLIP);
    set(Length, length);
    set(Inertia, 1 << 26);
    set(Eccentricity, 2048);
    set(OwnWeightMoment, 1 << 20);
    set(Wobble, wobble);
    set(Curvature, 350_000);
    set(Segments, first.len() as u64);
    set(Ages, MOST_AGES);
    set(SecondSegments, second.len() as u64);
    f.extend([first, second].concat().as_flattened());
    for i in 0..MOST_AGES {
        f.extend(age(if i + 1 < MOST_AGES { 744 + 100 * i } else { LIFE }, i * 1000 % 7777));
    }
    Member(f)
}

/// One path with the most segments, and a long duct: its X is above T.
fn large() -> Member {
    post_tensioned(&path(65_536), &[], 2_097_152, 700)
}

/// Two such paths, the most fields that there are, in a tendon as long as both.
fn largest() -> Member {
    let path = path(32_768);
    let length: u64 = path.iter().map(|segment| segment[OfSegment::Length as usize]).sum();
    post_tensioned(&path, &path, 2 * length, 1000)
}

/// The members by their names, and how often each runs in a round.
fn members() -> [(&'static str, Member, u32); 3] {
    [("sample", sample(), 2000), ("large", large(), 200), ("largest", largest(), 200)]
}

fn card(member: &Member) -> Vec<u8> {
    let (mut text, mut fields) = (String::new(), member.0.iter());
    for count in lines(member.segments(), member.ages()) {
        text.extend(fields.by_ref().take(count).map(|v| format!("{v:COLUMNS$}")));
        text.push('\n');
    }
    text.into_bytes()
}

fn list(member: &Member) -> Vec<u8> {
    let unit = |number: usize| if in_ticks(number, member.segments()) { TICKS as f64 } else { 1.0 };
    let double = |(i, &v): (usize, &u64)| (v as f64 / unit(i + 1)).to_bits().to_le_bytes();
    member.0.iter().enumerate().flat_map(double).collect()
}

/// The independent implementation as a C host would call it.
fn answer(run: Result<Run, Refusal>, report: &mut [u8], reply: &mut [u8]) -> u64 {
    let put = |buffer: &mut [u8], numbers: &[u64]| {
        for (bytes, number) in buffer.chunks_exact_mut(BYTES_OF_NUMBER).zip(numbers) {
            bytes.copy_from_slice(&number.to_le_bytes());
        }
    };
    match run {
        Err((number, place)) => {
            reply.fill(0);
            put(reply, &[place]);
            number
        }
        Ok(run) => {
            put(reply, &[&[0], &run.before[..], &[run.last_stress().to_bits()]].concat());
            put(report, run.rows.as_flattened());
            0
        }
    }
}

type Entry = fn(&[u8], &mut [u8], &mut [u8], &mut [u8]) -> u64;

/// Nanoseconds a run, over some runs.
fn time(runs: u32, mut run: impl FnMut() -> u64) -> f64 {
    let start = Instant::now();
    for _ in 0..runs {
        assert_eq!(black_box(run()), 0);
    }
    start.elapsed().as_nanos() as f64 / f64::from(runs)
}

fn median(mut times: Vec<f64>) -> f64 {
    times.sort_by(f64::total_cmp);
    times[times.len() / 2]
}

fn main() {
    let words: Vec<String> = std::env::args().collect();
    let (mut report, mut scratch, mut reply) = ([0u8; REPORT_BYTES], [0u8; REPORT_BYTES], [0u8; REPLY_BYTES]);
    if words.len() == 5 && words[1] == "count" {
        let (_, member, _) = members().into_iter().find(|&(name, ..)| name == words[3]).expect("a member of this name");
        let (entry, input): (Entry, Vec<u8>) =
            if words[2] == "card" { (stratelyn::run_card_bytes, card(&member)) } else { (stratelyn::run_list_bytes, list(&member)) };
        for _ in 0..words[4].parse().expect("how many runs") {
            assert_eq!(black_box(entry(&input, &mut report, &mut scratch, &mut reply)), 0);
        }
        return;
    }
    let paper = Paper::new();
    println!("{:14}{:>12}{:>16}{:>12}{:>8}", "", "core, ns", "independent, ns", "runs/s", "ratio");
    for (name, member, runs) in members() {
        let (text, bytes) = (card(&member), list(&member));
        for kind in ["card", "list"] {
            let (mut core, mut independent) = (Vec::new(), Vec::new());
            for _ in 0..ROUNDS {
                core.push(time(runs, || match kind {
                    "card" => stratelyn::run_card_bytes(&text, &mut report, &mut scratch, &mut reply),
                    _ => stratelyn::run_list_bytes(&bytes, &mut report, &mut scratch, &mut reply),
                }));
                independent.push(time(runs, || {
                    let numbers = |b: &[u8]| -> Vec<u64> {
                        b.chunks_exact(BYTES_OF_NUMBER).map(|n| u64::from_le_bytes(n.try_into().expect("eight bytes"))).collect()
                    };
                    let read = if kind == "card" { read_card(&text) } else { read_list(&numbers(&bytes)) };
                    let numbers_of_report = REPORT_BYTES / BYTES_OF_NUMBER;
                    let run = read.and_then(|member| paper.run(&member, numbers_of_report, numbers_of_report).due);
                    answer(run, &mut report, &mut reply)
                }));
            }
            let (core, independent) = (median(core), median(independent));
            println!("{name:8}{kind:6}{core:12.0}{independent:16.0}{:12.0}{:8.2}", 1e9 / core, core / independent);
        }
    }
}
