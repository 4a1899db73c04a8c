//! Random members from a fixed seed, as the tests of the hosts' side make them, their cards, and how often each kind has to come up.

#![allow(dead_code)]

use crate::paper::Field::*;
use crate::paper::{age, head_lines, range, segment, Answer, Field, Member, OfSegment, Paper, Path};
use crate::paper::{ACCELERATED, AGE_FIELDS, BEND, COLUMNS, FIRST_CODE, HEAD_FIELDS, INCHES_OF_FOOT, LAST_CODE, LEAST_AGES};
use crate::paper::{LEAST_TRANSFER, LEAST_TRANSFER_IF_MOIST, LIFE, MOIST, MOST_AGES, MOST_APART, MOST_CURING_IF_MOIST, MOST_SEGMENTS};
use crate::paper::{MOST_STRENGTH, MOST_TRANSFER, MOST_X, PARABOLA, POST_TENSIONED, PRETENSIONED, ROW_NUMBERS, SCRATCH_NUMBERS_OF_AGE};
use crate::paper::{SEGMENT_FIELDS, STRAIGHT, TICKS};
use std::ops::RangeInclusive;

/// Each answer and kind comes up at least so often.
pub const LEAST_COUNT: usize = 50;

/// The most ages up to document 02's W6.
const OLDER_MOST_AGES: u64 = 64;

/// Numbers that look random, from a fixed seed.
pub struct Random(pub u64);

impl Random {
    pub fn next(&mut self) -> u64 {
        self.0 ^= self.0 << 13;
        self.0 ^= self.0 >> 7;
        self.0 ^= self.0 << 17;
        self.0.wrapping_mul(0x2545_F491_4F6C_DD1D)
    }

    pub fn below(&mut self, n: u64) -> u64 {
        self.next() % n
    }

    pub fn between(&mut self, low: u64, high: u64) -> u64 {
        low + self.below(high - low + 1)
    }

    pub fn one_in(&mut self, n: u64) -> bool {
        self.below(n) == 0
    }

    pub fn pick<T: Copy>(&mut self, from: &[T]) -> T {
        from[self.below(from.len() as u64) as usize]
    }

    pub fn fill(&mut self, length: usize) -> Vec<u8> {
        (0..length).map(|_| self.next() as u8).collect()
    }
}

/// Fields of the section. At times it is slender: there the moments of ages lift the stress as far as 0.80 F and beyond.
fn section(r: &mut Random, area: u64) -> [(Field, u64); 4] {
    if r.one_in(4) {
        let inertia_bits = r.between(11, 24);
        let inertia = r.between(1 << 10, 1 << inertia_bits);
        [(Inertia, inertia), (Eccentricity, r.below(4096)), (SteelArea, r.between(1, 4)), (OwnWeightMoment, r.below(1 << 20))]
    } else {
        let inertia = r.between(1 << 20, 1 << 33);
        let steel_area = r.between(1, area / 100);
        [(Inertia, inertia), (Eccentricity, r.below(20_000)), (SteelArea, steel_area), (OwnWeightMoment, r.below(1 << 34))]
    }
}

/// Fields of the duct. At times it is long: with the segments below, its X comes up to 1.5 T and beyond. At times it has hardly any
/// friction, or none: there the drop at the jack is steep in the friction, or the slip goes by the tendon's length.
fn duct(r: &mut Random) -> [(Field, u64); 3] {
    if r.one_in(3) {
        [(Wobble, r.below(1000)), (Curvature, r.below(400_000)), (Segments, r.between(16, MOST_SEGMENTS))]
    } else if r.one_in(8) {
        [(Wobble, r.below(3)), (Curvature, r.below(3)), (Segments, r.between(1, 3))]
    } else {
        let segments = if r.one_in(8) { MOST_SEGMENTS } else { r.below(8) };
        [(Wobble, r.below(400)), (Curvature, r.below(250_000)), (Segments, segments)]
    }
}

/// The head of a member that is often accepted.
fn head(r: &mut Random) -> Vec<u64> {
    let kind = if r.one_in(3) { PRETENSIONED } else { POST_TENSIONED };
    let moist = r.one_in(2);
    let earliest = if moist { LEAST_TRANSFER_IF_MOIST } else { LEAST_TRANSFER };
    let latest_curing = if moist { MOST_CURING_IF_MOIST } else { MOST_TRANSFER };
    let transfer = r.between(earliest, if kind == PRETENSIONED { latest_curing } else { MOST_TRANSFER });
    let strength = r.between(100_000, MOST_STRENGTH);
    // In hundredths of it; at times so few that 7 comes at an age, also where a gain would follow.
    let jacked = if r.one_in(8) { r.between(2, 30) } else { r.between(30, 80) };
    let area = r.between(1 << 14, 1 << 22);
    let mut fields = vec![0; HEAD_FIELDS];
    let mut set = |field: Field, number: u64| fields[field.at()] = number;
    set(Kind, kind);
    set(Steel, r.between(FIRST_CODE, LAST_CODE));
    set(UltimateStrength, strength);
    set(JackingStress, strength * jacked / 100);
    set(DeflectorLoss, if kind == PRETENSIONED && r.one_in(3) { r.below(5000) } else { 0 });
    set(Slip, r.pick(&[0, 0, 1, 64, 256, 384, 384, 1024, 2048]));
    set(Length, r.between(20_480, 2_097_152));
    set(Cure, if moist { MOIST } else { ACCELERATED });
    set(Concrete, r.between(FIRST_CODE, LAST_CODE));
    set(Es, r.between(24_000_000, 30_000_000));
    set(Eci, r.between(2_000_000, 8_000_000));
    set(Ec, r.between(2_000_000, 8_000_000));
    set(VolumeToSurface, r.between(1024, 10_240));
    set(Area, area);
    section(r, area).into_iter().for_each(|(field, number)| set(field, number));
    set(EndOfCuring, if kind == PRETENSIONED { transfer } else { r.between(0, transfer.min(MOST_CURING_IF_MOIST)) });
    set(Transfer, transfer);
    duct(r).into_iter().for_each(|(field, number)| set(field, number));
    if kind == PRETENSIONED || r.one_in(6) {
        set(Segments, 0);
    }
    set(Ages, ages(r));
    // In all, somewhat more than half of the members have a second path.
    let both_ends = if kind == PRETENSIONED { r.one_in(8) } else { !r.one_in(4) };
    set(SecondSegments, if both_ends { second_segments(r) } else { 0 });
    fields
}

/// How many segments a second path has.
fn second_segments(r: &mut Random) -> u64 {
    match r.below(8) {
        0 => MOST_SEGMENTS,
        1..=2 => r.between(16, MOST_SEGMENTS),
        _ => r.between(1, 8),
    }
}

/// How many ages a member has. At times they are too many, each with its line.
fn ages(r: &mut Random) -> u64 {
    match r.below(32) {
        0..=3 => MOST_AGES,
        4 => r.between(MOST_AGES + 1, OLDER_MOST_AGES),
        _ => r.between(LEAST_AGES, 12),
    }
}

/// The fields of a bend.
pub fn bend(r: &mut Random) -> [u64; SEGMENT_FIELDS] {
    segment(BEND, 0, r.below(200))
}

/// The fields of a straight.
fn straight(r: &mut Random) -> [u64; SEGMENT_FIELDS] {
    let longest = if r.one_in(8) { 8 } else { 65_536 };
    segment(STRAIGHT, r.between(1, longest), 0)
}

/// The fields of the segments of a path.
fn path(r: &mut Random, segments: u64) -> Vec<[u64; SEGMENT_FIELDS]> {
    let kind = |r: &mut Random| match r.pick(&[STRAIGHT, PARABOLA, BEND]) {
        STRAIGHT => straight(r),
        PARABOLA => segment(PARABOLA, r.between(8192, 131_072), r.below(2048)),
        _ => bend(r),
    };
    (0..segments).map(|_| kind(r)).collect()
}

/// The fields of a member that is often accepted.
pub fn member(r: &mut Random) -> Vec<u64> {
    let mut f = head(r);
    let segments = [path(r, f[Segments.at()]), path(r, f[SecondSegments.at()])].concat();
    f.extend(segments.as_flattened());
    if f[SecondSegments.at()] > 0 {
        let ties = f[Kind.at()] == POST_TENSIONED && r.one_in(32);
        if ties { tie(r, &mut f) } else { meet(r, &mut f) };
    }
    let (ages, to_the_end, heaviest) = (f[Ages.at()], r.one_in(2), 1 << r.between(16, 38));
    let mut hour = f[Transfer.at()];
    for later in (0..ages).rev() {
        let left = LIFE - hour - (later + 1);
        hour += 1 + r.below((left / (later + 1)).max(1));
        if to_the_end && later == 0 {
            hour = LIFE;
        }
        f.extend(age(hour, if r.one_in(3) { r.below(heaviest) } else { 0 }));
    }
    f
}

// ---- two paths

/// The fields of a path's segments, each by itself.
pub fn segments_of<'a>(f: &'a mut [u64], path: &Path) -> impl Iterator<Item = &'a mut [u64]> {
    let fields = SEGMENT_FIELDS * path.start..SEGMENT_FIELDS * path.end;
    f[HEAD_FIELDS..][fields].chunks_mut(SEGMENT_FIELDS)
}

/// The two paths of a member whose fields go as far as its segments at least.
pub fn paths_of(f: &[u64]) -> [Path; 2] {
    let (first, second) = (f[Segments.at()] as usize, f[SecondSegments.at()] as usize);
    [0..first, first..first + second]
}

/// Of both together, in ticks of foot.
pub fn length_of_paths(f: &[u64]) -> u64 {
    let [first, second] = paths_of(f);
    let member = Member(f.to_vec());
    (member.path_length(&first) + member.path_length(&second)) as u64
}

/// Makes the tendon about as long as the two paths, which are shortened if no tendon is so long: often to the tick or within a foot; at
/// times a foot apart, or a foot and a tick, which document 02's W9 refuses; at times it stays as it is.
fn meet(r: &mut Random, f: &mut [u64]) {
    let (most, natural) = (*range(Length).end(), length_of_paths(f));
    let all = 0..paths_of(f)[1].end;
    for segment in segments_of(f, &all).filter(|_| natural > most) {
        let least = match segment[OfSegment::Kind as usize] {
            STRAIGHT => 1,
            PARABOLA => 1024,
            _ => 0,
        };
        let length = &mut segment[OfSegment::Length as usize];
        *length = (*length * most / natural).max(least);
    }
    let (both, foot) = (length_of_paths(f), MOST_APART as u64);
    f[Length.at()] = match r.below(16) {
        0 => return,
        1 => both + foot,
        2 => both + foot + 1,
        3 => both.saturating_sub(foot),
        4 => both.saturating_sub(foot + 1),
        5..=8 => (both + r.below(2 * foot)).saturating_sub(foot),
        _ => both,
    }
    .max(*range(Length).start());
}

/// Brings two paths to the same stress after slip by other losses, if it can. The one has bends alone, so that its slip goes over the
/// tendon; along the other, of straights, the slip dies out. The curvature makes up for most of the friction that the bends lack, and Es
/// for the rest.
fn tie(r: &mut Random, f: &mut [u64]) {
    let mut paths = paths_of(f);
    if r.one_in(2) {
        paths.reverse();
    }
    let [bends, straights] = paths;
    segments_of(f, &bends).for_each(|fields| fields.copy_from_slice(&segment(BEND, 0, r.between(1, 200))));
    segments_of(f, &straights).for_each(|fields| fields.copy_from_slice(&segment(STRAIGHT, r.between(4096, 32_768), 0)));
    let both = length_of_paths(f).max(*range(Length).start());
    for (field, number) in [(Length, both), (Slip, r.pick(&[64, 256, 384])), (Wobble, r.between(100, 1000))] {
        f[field.at()] = number;
    }
    let along = Member(f.to_vec());
    if along.x(&straights) > MOST_X || along.friction(&straights) <= along.slip_over_tendon() {
        return;
    }
    let friction = along.friction(&straights);
    let most = friction - along.slip_over_tendon();
    let bent = |curvature: u64| {
        let mut bent = along.clone();
        bent.0[Curvature.at()] = curvature;
        bent
    };
    let curvature = largest(range(Curvature), |curvature| {
        let bent = bent(curvature);
        bent.x(&bends) <= MOST_X && bent.friction(&bends) <= most
    });
    let slip = friction - bent(curvature).friction(&bends);
    let es = (slip * INCHES_OF_FOOT * u128::from(both)).div_ceil(u128::from(f[Slip.at()]) * TICKS) as u64;
    f[Curvature.at()] = curvature;
    if range(Es).contains(&es) {
        f[Es.at()] = es;
    }
}

/// The largest number of a range at which this holds, if it holds from the range's start up to some number.
pub fn largest(range: RangeInclusive<u64>, holds: impl Fn(u64) -> bool) -> u64 {
    let (mut least, mut most) = range.into_inner();
    while least < most {
        let middle = least + (most - least).div_ceil(2);
        (least, most) = if holds(middle) { (middle, most) } else { (least, middle - 1) };
    }
    least
}

/// The losses of a member, with room for every row.
pub fn losses(paper: &Paper, member: &Member) -> Answer {
    let room = ROW_NUMBERS.max(SCRATCH_NUMBERS_OF_AGE) * MOST_AGES as usize;
    paper.run(member, room, room)
}

/// A field's columns: digits behind spaces, or, rarely, behind zeros; the slip is blank at times.
fn columns(r: &mut Random, at: usize, number: u64) -> String {
    if at == Slip.at() && r.one_in(20) {
        return " ".repeat(COLUMNS);
    }
    if r.one_in(50) { format!("{number:0COLUMNS$}") } else { format!("{number:COLUMNS$}") }
}

/// The fields in lines: those of the head, of as many segments as it says, and of ages as far as there are fields.
pub fn lines_of(r: &mut Random, f: &[u64]) -> String {
    let mut text = String::new();
    let (mut at, mut line) = (0, 0);
    let segments = [Segments, SecondSegments].map(|field| f[field.at()].min(MOST_SEGMENTS + 6) as usize).iter().sum::<usize>();
    let head = head_lines();
    while at < f.len() {
        let count = match line {
            _ if line < head.len() => head[line],
            _ if line < head.len() + segments => SEGMENT_FIELDS,
            _ => AGE_FIELDS,
        };
        let end = f.len().min(at + count);
        (at..end).for_each(|i| text += &columns(r, i, f[i]));
        text.push('\n');
        at = end;
        line += 1;
    }
    text
}

/// The card with other columns for a field of its first line.
pub fn with_columns(card: &[u8], field: Field, columns: &str) -> Vec<u8> {
    let start = COLUMNS * field.at();
    [&card[..start], columns.as_bytes(), &card[start + COLUMNS..]].concat()
}

/// Holds each kind's count of so many cases to the least that it has to be.
pub fn hold_kinds(cases: usize, kinds: &[(&str, usize, usize)]) {
    for &(kind, count, least) in kinds {
        println!("{kind}: {count} of {cases}");
        assert!(count >= least, "{kind}: {count} of {cases}");
    }
}
