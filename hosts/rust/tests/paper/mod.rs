//! The method of documents 01 and 02, written from the papers for the tests alone. It shares nothing with the core: it reads with
//! `u128`s, finds its thresholds with numbers of any size, and knows nothing of the core's order of work beyond the papers' checks.

#![allow(dead_code)]

use std::ops::{Range, RangeInclusive};
use Field::*;

// ---- the table of fields

/// The fields of a card's head, in document 01's order and by its numbers.
#[derive(Debug, Clone, Copy, PartialEq, Eq)]
pub enum Field {
    Kind = 1,
    Steel,
    UltimateStrength,
    JackingStress,
    DeflectorLoss,
    Slip,
    Length,
    Cure,
    Concrete,
    Es,
    Eci,
    Ec,
    VolumeToSurface,
    Area,
    Inertia,
    Eccentricity,
    SteelArea,
    OwnWeightMoment,
    EndOfCuring,
    Transfer,
    Wobble,
    Curvature,
    Segments,
    Ages,
    SecondSegments,
}

impl Field {
    pub const fn number(self) -> usize {
        self as usize
    }

    /// Where it stands among the fields, the first being 0.
    pub const fn at(self) -> usize {
        self as usize - 1
    }
}

/// The last field of each line of the head.
const LAST_OF_LINES: [Field; 4] = [Length, VolumeToSurface, OwnWeightMoment, SecondSegments];
pub const HEAD_LINES: usize = LAST_OF_LINES.len();
pub const HEAD_FIELDS: usize = LAST_OF_LINES[HEAD_LINES - 1].number();

/// The fields of a segment and of an age.
#[derive(Debug, Clone, Copy)]
pub enum OfSegment {
    Kind,
    Length,
    Rise,
}

#[derive(Debug, Clone, Copy)]
pub enum OfAge {
    Hour,
    Moment,
}

pub const SEGMENT_FIELDS: usize = 3;
pub const AGE_FIELDS: usize = 2;

/// A segment's fields, for who makes a card or a list.
pub fn segment(kind: u64, length: u64, rise: u64) -> [u64; SEGMENT_FIELDS] {
    [kind, length, rise]
}

/// An age's fields, for who makes a card or a list.
pub fn age(hour: u64, moment: u64) -> [u64; AGE_FIELDS] {
    [hour, moment]
}

/// The codes of kind, cure and concrete; steel's first, and a segment's.
pub const PRETENSIONED: u64 = 1;
pub const POST_TENSIONED: u64 = 2;
pub const STRESS_RELIEVED: u64 = 1;
pub const MOIST: u64 = 1;
pub const ACCELERATED: u64 = 2;
pub const NORMAL: u64 = 1;
pub const STRAIGHT: u64 = 1;
pub const PARABOLA: u64 = 2;
pub const BEND: u64 = 3;

/// The fields that have a code, 1 or 2.
pub const CODES: [Field; 4] = [Kind, Steel, Cure, Concrete];
pub const FIRST_CODE: u64 = 1;
pub const LAST_CODE: u64 = 2;

/// The ends of each field's range. The jacking stress is at most 0.80 F beside, the deflector loss 0 if post-tensioned.
pub const RANGES: [(Field, u64, u64); 19] = [
    (UltimateStrength, 100_000, MOST_STRENGTH),
    (JackingStress, 1000, MOST_STRENGTH * 8 / 10),
    (DeflectorLoss, 0, 20_000),
    (Slip, 0, 2048),
    (Length, 1024, 2_097_152),
    (Es, 20_000_000, 32_000_000),
    (Eci, 1_000_000, 8_000_000),
    (Ec, 1_000_000, 8_000_000),
    (VolumeToSurface, 1024, 65_536),
    (Area, 1024, 1 << 24),
    (Inertia, 1024, 1 << 34),
    (Eccentricity, 0, 65_536),
    (SteelArea, 1, 65_536),
    (OwnWeightMoment, 0, MOST_MOMENTS),
    (Wobble, 0, 2000),
    (Curvature, 0, 400_000),
    (Segments, 0, MOST_SEGMENTS),
    (Ages, LEAST_AGES, MOST_AGES),
    (SecondSegments, 0, MOST_SEGMENTS),
];
pub const MOST_STRENGTH: u64 = 300_000;
pub const MOST_MOMENTS: u64 = 1 << 40;
pub const MOST_SEGMENTS: u64 = 64;
pub const LEAST_AGES: u64 = 3;
pub const MOST_AGES: u64 = 48; // of document 02's W6
pub const LEAST_TRANSFER: u64 = 1;
pub const LEAST_TRANSFER_IF_MOIST: u64 = 72;
pub const MOST_TRANSFER: u64 = 960;
pub const MOST_CURING_IF_MOIST: u64 = 168;
pub const LIFE: u64 = 438_000;
pub const MOST_X: u128 = 3 * T / 2; // 1.5 T, of document 02's W3
const MOST_KAPPA: u128 = 1 << 30;
const MOST_CREEP: u128 = 1 << 56;
const LEAST_STRESS: u128 = 1000 * TICKS;
pub const MOST_APART: u128 = TICKS; // "one foot", of document 02's W9

/// A field's range.
pub fn range(field: Field) -> RangeInclusive<u64> {
    let (_, least, most) = RANGES.into_iter().find(|&(of, ..)| of == field).expect("the field has a range");
    least..=most
}

/// The fields of the head that are kept in ticks.
const IN_TICKS: [Field; 8] = [Slip, Length, VolumeToSurface, Area, Inertia, Eccentricity, SteelArea, OwnWeightMoment];

/// Columns of a card's field, and what a blank slip reads.
pub const COLUMNS: usize = 14;
pub const BLANK_SLIP: u64 = 384;

/// How many fields each line of the head has.
pub fn head_lines() -> [usize; HEAD_LINES] {
    let mut before = 0;
    LAST_OF_LINES.map(|last| last.number() - std::mem::replace(&mut before, last.number()))
}

/// How many fields each line of a card has, with so many segments on both paths together.
pub fn lines(segments: usize, ages: usize) -> Vec<usize> {
    [&head_lines()[..], &vec![SEGMENT_FIELDS; segments], &vec![AGE_FIELDS; ages]].concat()
}

/// The number of a field of a segment, and of an age, the first being 0. The second path's segments count on from those of the first.
fn number_in_segment(segment: usize, field: OfSegment) -> usize {
    HEAD_FIELDS + 1 + SEGMENT_FIELDS * segment + field as usize
}

fn number_in_age(segments: usize, age: usize, field: OfAge) -> usize {
    HEAD_FIELDS + 1 + SEGMENT_FIELDS * segments + AGE_FIELDS * age + field as usize
}

/// Whether the field of a number is kept in ticks, or is whole, with so many segments on both paths together.
pub fn in_ticks(number: usize, segments: usize) -> bool {
    if number <= HEAD_FIELDS {
        return IN_TICKS.iter().any(|field| field.number() == number);
    }
    let behind_head = number - HEAD_FIELDS - 1;
    if behind_head < SEGMENT_FIELDS * segments {
        return behind_head % SEGMENT_FIELDS != OfSegment::Kind as usize;
    }
    (behind_head - SEGMENT_FIELDS * segments) % AGE_FIELDS != OfAge::Hour as usize
}

// ---- answers

/// A refusal's number and place.
pub type Refusal = (u64, u64);

/// The refusals' numbers.
pub mod refused {
    pub const CODE: u64 = 1;
    pub const RANGE: u64 = 2;
    pub const HOURS: u64 = 3;
    pub const DUCT: u64 = 4;
    pub const SECTION: u64 = 5;
    pub const CREEP: u64 = 6;
    pub const STRESS: u64 = 7;
    pub const SHAPE: u64 = 8;
    pub const DOUBLE: u64 = 9;
    pub const BUFFER: u64 = 10;
    pub const OVERSTRESS: u64 = 11;
    pub const ANCHOR_SET: u64 = 12;
    pub const PRETENSIONED: u64 = 13;
    pub const SECOND_PATH: u64 = 14;
    pub const PATH_LENGTHS: u64 = 15;
    pub const LAST: u64 = PATH_LENGTHS;
}

/// A card or a list as it is read: all its fields, by their numbers less 1.
#[derive(Debug, Clone, PartialEq)]
pub struct Member(pub Vec<u64>);

impl Member {
    fn field(&self, field: Field) -> u128 {
        u128::from(self.0[field.at()])
    }

    /// Those of both paths.
    pub fn segments(&self) -> usize {
        self.first_path().len() + self.second_path().len()
    }

    /// The first path, by where its segments stand among all; without one it is empty.
    pub fn first_path(&self) -> Path {
        0..self.0[Segments.at()] as usize
    }

    /// The second path, "from the far end to the section"; without one it is empty.
    pub fn second_path(&self) -> Path {
        let start = self.first_path().end;
        start..start + self.0[SecondSegments.at()] as usize
    }

    pub fn has_second_path(&self) -> bool {
        !self.second_path().is_empty()
    }

    /// The first path, and the second if there is one.
    pub fn paths(&self) -> Vec<Path> {
        let second = self.has_second_path().then(|| self.second_path());
        [self.first_path()].into_iter().chain(second).collect()
    }

    pub fn ages(&self) -> usize {
        self.0[Ages.at()] as usize
    }

    fn code(&self, field: Field) -> u64 {
        self.0[field.at()]
    }

    fn pretensioned(&self) -> bool {
        self.code(Kind) == PRETENSIONED
    }

    fn moist(&self) -> bool {
        self.code(Cure) == MOIST
    }

    /// The jacking stress in ticks.
    pub fn jacked(&self) -> u128 {
        self.field(JackingStress) * TICKS
    }

    /// "at most 0.80 F" of the jacking stress, and in W1 of the stress after a gain.
    fn permits(&self, stress: u128) -> bool {
        10 * stress <= 8 * self.field(UltimateStrength) * TICKS
    }

    fn segment(&self, segment: usize, field: OfSegment) -> u128 {
        u128::from(self.0[number_in_segment(segment, field) - 1])
    }

    pub fn segment_kind(&self, segment: usize) -> u64 {
        self.segment(segment, OfSegment::Kind) as u64
    }

    fn age(&self, age: usize, field: OfAge) -> u128 {
        u128::from(self.0[number_in_age(self.segments(), age, field) - 1])
    }

    pub fn hour(&self, age: usize) -> u64 {
        self.age(age, OfAge::Hour) as u64
    }
}

/// The segments of a path, the first of all being 0.
pub type Path = Range<usize>;

pub type Reading = Result<Member, Refusal>;

/// The losses before the ages and the stress after them; and creep, shrinkage, relaxation, stress and gain of an age.
pub const BEFORE_NUMBERS: usize = 6;
pub const ROW_NUMBERS: usize = 5;
/// On the line that a report has for an age, its number and hour stand before these.
pub const AGE_LINE_NUMBERS: usize = 2 + ROW_NUMBERS;
const ROW_STRESS: usize = 3;
const ROW_GAIN: usize = 4;

/// Numbers of scratch that an age needs.
pub const SCRATCH_NUMBERS_OF_AGE: usize = ROW_NUMBERS;

/// An accepted run.
#[derive(Debug, Clone, PartialEq)]
pub struct Run {
    pub before: [u64; BEFORE_NUMBERS],
    pub rows: Vec<[u64; ROW_NUMBERS]>,
}

impl Run {
    /// The last stress in psi.
    pub fn last_stress(&self) -> f64 {
        self.rows.last().expect("an age")[ROW_STRESS] as f64 / TICKS as f64
    }

    /// Whether a moment lifts the stress at some age.
    pub fn gains(&self) -> bool {
        self.rows.iter().any(|row| row[ROW_GAIN] > 0)
    }

    /// What the report program prints for a member with this run: the losses before the ages and the stress after them, then each age's
    /// number, hour and row.
    pub fn report(&self, member: &Member) -> String {
        let line = |age: usize| printed_line(&[&[age as u64 + 1, member.hour(age)], &self.rows[age][..]].concat());
        printed_line(&self.before) + &(0..self.rows.len()).map(line).collect::<String>()
    }
}

/// What the papers give for a member: a run or its refusal; and, if the run came to the slip, what its paths have come to there.
#[derive(Debug, Clone, PartialEq)]
pub struct Answer {
    pub due: Result<Run, Refusal>,
    pub slipped: Option<Slipped>,
}

impl From<Refusal> for Answer {
    /// Refused before the slip.
    fn from(refusal: Refusal) -> Self {
        Answer { due: Err(refusal), slipped: None }
    }
}

/// The first path, and the second if there is one, with what each has lost to friction and slip by itself.
#[derive(Debug, Clone, Copy, PartialEq)]
pub struct Slipped {
    pub first: SlippedPath,
    pub second: Option<SlippedPath>,
}

impl Slipped {
    pub fn paths(&self) -> impl Iterator<Item = SlippedPath> {
        [self.first].into_iter().chain(self.second)
    }

    /// The path whose stress "goes on, the first path's if they are equal".
    pub fn going_on(&self) -> SlippedPath {
        match self.second {
            Some(second) if second.left() > self.first.left() => second,
            _ => self.first,
        }
    }
}

/// A path at the section, by itself: its X and its length in ticks of foot; the jacking stress, and what friction and slip take of it, in
/// ticks of psi; and the anchor set, if document 02's W5 rules.
#[derive(Debug, Clone, Copy, PartialEq)]
pub struct SlippedPath {
    pub x: u128,
    pub length: u128,
    jacked: u128,
    pub friction: u128,
    pub slip: u128,
    pub anchor_set: Option<AnchorSet>,
}

impl SlippedPath {
    /// The stress after slip, which may be less than none.
    pub fn left(&self) -> i128 {
        self.jacked as i128 - self.friction as i128 - self.slip as i128
    }

    /// Whether number 7 would look at too little stress here.
    pub fn is_spent(&self) -> bool {
        self.left() < LEAST_STRESS as i128
    }

    /// Whether there is a duct: friction or a length.
    pub fn has_duct(&self) -> bool {
        self.x > 0 || self.length > 0
    }

    /// Whether the wedges draw in along the duct: W5 rules, and the drop at the jack is above 0.
    pub fn sets_along_duct(&self) -> bool {
        self.anchor_set.is_some_and(|set| set.drop_at_jack > 0)
    }
}

/// "the measurable part, which is 80 of 100", of document 02's W7.
const MEASURABLE_HUNDREDTHS: u64 = 80;

/// An elongation sheet: the elongation of each segment, in ticks of inch; and the X of its path.
#[derive(Debug, Clone, PartialEq)]
pub struct Sheet {
    pub x: u128,
    pub elongations: Vec<u64>,
}

impl Sheet {
    pub fn sum(&self) -> u64 {
        self.elongations.iter().sum()
    }

    pub fn measurable(&self) -> u64 {
        MEASURABLE_HUNDREDTHS * self.sum() / 100
    }
}

/// Whether a duct is long: its X is above T.
pub fn is_long(x: u128) -> bool {
    x > T
}

/// A line that a program prints: numbers in columns.
pub fn printed_line(numbers: &[u64]) -> String {
    numbers.iter().map(|n| format!("{n:COLUMNS$}")).collect::<String>() + "\n"
}

/// The numbers of a line that a program prints.
pub fn printed_numbers<const COUNT: usize>(line: &str) -> [u64; COUNT] {
    let columns = (0..line.len()).step_by(COLUMNS).map(|at| &line[at..][..COLUMNS]);
    let numbers: Vec<u64> = columns.map(|columns| columns.trim_start().parse().expect("a number")).collect();
    numbers.try_into().expect("as many numbers")
}

// ---- the anchor set

/// The anchor set that dies out along the duct, of document 02's W5: P, d and Z. The length is in ticks of foot, stresses in ticks of psi.
#[derive(Debug, Clone, Copy, PartialEq)]
pub struct AnchorSet {
    path_length: u128,
    friction: u128,
    pub drop_at_jack: u128,
}

impl AnchorSet {
    /// The set along a path, with Es in psi and the slip in ticks; none "Where d or P is 0".
    fn along(path_length: u128, friction: u128, es: u128, slip: u128) -> Option<Self> {
        if friction == 0 || path_length == 0 {
            return None;
        }
        // "Z²·P at most 4·d·Es·slip", with P and the slip in ticks of inch on both sides.
        let drop_at_jack = largest_root(INCHES_OF_FOOT * path_length, 4 * friction * (es * TICKS) * slip);
        Some(AnchorSet { path_length, friction, drop_at_jack })
    }

    /// "Z − 2d, or 0 where that is negative".
    fn drop_at_section(&self) -> u128 {
        self.drop_at_jack.saturating_sub(2 * self.friction)
    }

    /// Whether the affected length Z·P/(2d), unrounded, passes a length.
    pub fn passes(&self, length: u128) -> bool {
        self.drop_at_jack * self.path_length > 2 * self.friction * length
    }

    /// The affected length, rounded down.
    pub fn affected_length(&self) -> u64 {
        (self.drop_at_jack * self.path_length / (2 * self.friction)) as u64
    }
}

/// The largest whole number z with `times`·z² at most `most`, found bit by bit from the highest that it can have.
fn largest_root(times: u128, most: u128) -> u128 {
    let bits = (u128::BITS - most.leading_zeros()).div_ceil(2);
    (0..bits).rev().map(|bit| 1 << bit).fold(0, |root, more| {
        let tried = root + more;
        if times * tried * tried <= most { tried } else { root }
    })
}

const T: u128 = 1 << 24;
pub const TICKS: u128 = 1024;
pub const INCHES_OF_FOOT: u128 = 12;
const MILLION: u128 = 1_000_000;
const DAY: u128 = 24;

// ---- numbers of any size, for the thresholds

fn times(a: &[u32], b: &[u32]) -> Vec<u32> {
    let mut out = vec![0u32; a.len() + b.len()];
    for (i, &x) in a.iter().enumerate() {
        let mut carry = 0u64;
        for (j, &y) in b.iter().enumerate() {
            let sum = u64::from(out[i + j]) + u64::from(x) * u64::from(y) + carry;
            out[i + j] = sum as u32;
            carry = sum >> 32;
        }
        out[i + b.len()] = carry as u32;
    }
    while out.last() == Some(&0) {
        out.pop();
    }
    out
}

fn at_most(a: &[u32], b: &[u32]) -> bool {
    a.len() < b.len() || (a.len() == b.len() && a.iter().rev().le(b.iter().rev()))
}

/// L(h) is the largest k with 10^k at most h to this power, a power of 2.
const POWER: u32 = 256;

/// h to that power, by squarings.
fn to_the_power(h: u32) -> Vec<u32> {
    (0..POWER.ilog2()).fold(vec![h], |x, _| times(&x, &x))
}

/// The smallest hour that reaches each k, up to the first one past the service life.
fn thresholds() -> Vec<u32> {
    let mut ten = vec![1u32];
    let mut table: Vec<u32> = Vec::new();
    while table.last().is_none_or(|&hour| u64::from(hour) <= LIFE) {
        let k = table.len() as f64;
        let mut hour = (10f64.powf(k / f64::from(POWER)).floor() as u32).max(1);
        while hour > 1 && at_most(&ten, &to_the_power(hour - 1)) {
            hour -= 1;
        }
        while !at_most(&ten, &to_the_power(hour)) {
            hour += 1;
        }
        table.push(hour);
        ten = times(&ten, &[10]);
    }
    table
}

/// The paper's lines, with the thresholds worked out once.
pub struct Paper {
    thresholds: Vec<u32>,
}

// ---- tables

type Row = (u128, u128);

const SCF: [Row; 5] = [(1, 105), (2, 96), (3, 87), (4, 77), (5, 68)];
const SSF: [Row; 6] = [(1, 104), (2, 96), (3, 86), (4, 77), (5, 69), (6, 60)];
const MCF: [Row; 7] = [(3, 114), (5, 107), (7, 100), (10, 96), (20, 84), (30, 72), (40, 60)];
const CREEP: [Row; 12] = [
    (0, 0), (1, 8), (2, 15), (5, 18), (7, 23), (10, 24), (20, 30), (30, 35), (60, 45), (90, 51), (180, 61), (365, 74),
];
const SHRINKAGE: [Row; 12] = [
    (0, 0), (1, 8), (3, 15), (5, 20), (7, 22), (10, 27), (20, 36), (30, 42), (60, 55), (90, 62), (180, 68), (365, 86),
];

/// `unit` times the value at x, rounded down; rows stand at multiples of `step`, and `end` is one row more.
fn along(rows: &[Row], step: u128, end: Option<Row>, unit: u128, x: u128) -> u128 {
    let mut all: Vec<Row> = rows.iter().map(|&(at, v)| (at * step, v)).collect();
    all.extend(end);
    for pair in all.windows(2) {
        let ((a, va), (b, vb)) = (pair[0], pair[1]);
        if x < b {
            let rise = (va * (b - a)) as i128 + (vb as i128 - va as i128) * (x - a) as i128;
            return unit * rise as u128 / (100 * (b - a));
        }
    }
    unit * all[all.len() - 1].1 / 100
}

// ---- reading

fn card_field(columns: &[u8], number: usize) -> Option<u64> {
    let spaces = columns.iter().take_while(|&&b| b == b' ').count();
    if spaces == COLUMNS {
        return if number == Slip.number() { Some(BLANK_SLIP) } else { None };
    }
    let digits = &columns[spaces..];
    if digits.iter().all(u8::is_ascii_digit) {
        std::str::from_utf8(digits).ok()?.parse().ok()
    } else {
        None
    }
}

/// Counts are ranged while the shape is read.
fn check_count(field: Field, count: u64) -> Result<usize, Refusal> {
    check(range(field).contains(&count), refused::RANGE, field.number())?;
    Ok(count as usize)
}

pub fn read_card(card: &[u8]) -> Reading {
    let mut fields = Vec::new();
    let mut at = 0;
    let mut line = 0;
    let mut read = |counts: &[usize], fields: &mut Vec<u64>| -> Result<usize, Refusal> {
        for &count in counts {
            line += 1;
            let width = COLUMNS * count + 1;
            let text = card.get(at..at + width).ok_or((refused::SHAPE, line))?;
            if text[width - 1] != b'\n' {
                return Err((refused::SHAPE, line));
            }
            for columns in text[..width - 1].chunks(COLUMNS) {
                fields.push(card_field(columns, fields.len() + 1).ok_or((refused::SHAPE, line))?);
            }
            at += width;
        }
        Ok(at)
    };
    read(&head_lines(), &mut fields)?;
    let first = check_count(Segments, fields[Segments.at()])?;
    let ages = check_count(Ages, fields[Ages.at()])?;
    let second = check_count(SecondSegments, fields[SecondSegments.at()])?;
    let lines = lines(first + second, ages);
    let end = read(&lines[HEAD_LINES..], &mut fields)?;
    check(end == card.len(), refused::SHAPE, lines.len() + 1)?;
    Ok(Member(fields))
}

fn double(bits: u64, in_ticks: bool) -> Option<u64> {
    let x = f64::from_bits(bits);
    if !x.is_finite() || x < 0.0 || x >= 2147483648.0 {
        return None;
    }
    if in_ticks {
        return Some((x * TICKS as f64).floor() as u64);
    }
    if x.fract() == 0.0 { Some(x as u64) } else { None }
}

pub fn read_list(list: &[u64]) -> Reading {
    check(list.len() >= HEAD_FIELDS, refused::SHAPE, 0)?;
    let count = |field: Field| {
        let count = double(list[field.at()], false).ok_or((refused::DOUBLE, field.number() as u64))?;
        check_count(field, count)
    };
    let (first, ages, second) = (count(Segments)?, count(Ages)?, count(SecondSegments)?);
    let segments = first + second;
    check(list.len() == lines(segments, ages).iter().sum(), refused::SHAPE, 0)?;
    let mut fields = Vec::new();
    for (i, &bits) in list.iter().enumerate() {
        let number = i + 1;
        fields.push(double(bits, in_ticks(number, segments)).ok_or((refused::DOUBLE, number as u64))?);
    }
    Ok(Member(fields))
}

// ---- checks

fn check(holds: bool, number: u64, place: usize) -> Result<(), Refusal> {
    if holds { Ok(()) } else { Err((number, place as u64)) }
}

/// Document 01's rows of codes, ranges and hours, as the losses and the sheet both have them.
fn check_fields(member: &Member) -> Result<(), Refusal> {
    check_codes(member)?;
    check_ranges(member)?;
    check_hours(member)
}

fn check_codes(member: &Member) -> Result<(), Refusal> {
    for field in CODES {
        check((FIRST_CODE..=LAST_CODE).contains(&member.code(field)), refused::CODE, field.number())?;
    }
    for i in 0..member.segments() {
        let listed = [STRAIGHT, PARABOLA, BEND].contains(&member.segment_kind(i));
        check(listed, refused::CODE, number_in_segment(i, OfSegment::Kind))?;
    }
    Ok(())
}

fn check_ranges(member: &Member) -> Result<(), Refusal> {
    check_ranges_of_head(member)?;
    check_ranges_of_segments(member)?;
    check_moments(member)
}

fn check_ranges_of_head(member: &Member) -> Result<(), Refusal> {
    for (field, least, most) in RANGES {
        let within = match field {
            JackingStress => member.permits(member.jacked()),
            DeflectorLoss => member.pretensioned() || member.field(DeflectorLoss) == 0,
            _ => true,
        };
        let number = member.field(field);
        check(u128::from(least) <= number && number <= u128::from(most) && within, refused::RANGE, field.number())?;
    }
    Ok(())
}

fn check_ranges_of_segments(member: &Member) -> Result<(), Refusal> {
    for i in 0..member.segments() {
        let (length, rise) = (member.segment(i, OfSegment::Length), member.segment(i, OfSegment::Rise));
        let (long, high) = match member.segment_kind(i) {
            STRAIGHT => ((1..=2_097_152).contains(&length), rise == 0),
            PARABOLA => ((1024..=2_097_152).contains(&length), rise <= 65_536),
            _ => (length == 0, rise <= 4096),
        };
        check(long, refused::RANGE, number_in_segment(i, OfSegment::Length))?;
        check(high, refused::RANGE, number_in_segment(i, OfSegment::Rise))?;
    }
    Ok(())
}

fn check_moments(member: &Member) -> Result<(), Refusal> {
    let mut moments = member.field(OwnWeightMoment);
    for i in 0..member.ages() {
        moments += member.age(i, OfAge::Moment);
        check(moments <= u128::from(MOST_MOMENTS), refused::RANGE, number_in_age(member.segments(), i, OfAge::Moment))?;
    }
    Ok(())
}

fn check_hours(member: &Member) -> Result<(), Refusal> {
    let (curing, transfer, moist) = (member.field(EndOfCuring), member.field(Transfer), member.moist());
    let in_order = curing <= transfer && (!member.pretensioned() || curing == transfer);
    let in_time = !moist || curing <= u128::from(MOST_CURING_IF_MOIST);
    check(in_order && in_time, refused::HOURS, EndOfCuring.number())?;
    let earliest = u128::from(if moist { LEAST_TRANSFER_IF_MOIST } else { LEAST_TRANSFER });
    check(earliest <= transfer && transfer <= u128::from(MOST_TRANSFER), refused::HOURS, Transfer.number())?;
    let mut last = transfer;
    for i in 0..member.ages() {
        let hour = member.age(i, OfAge::Hour);
        check(last < hour && hour <= u128::from(LIFE), refused::HOURS, number_in_age(member.segments(), i, OfAge::Hour))?;
        last = hour;
    }
    Ok(())
}

/// The row of the duct, as the losses have it with document 02's W9 in it.
fn check_duct(member: &Member) -> Result<(), Refusal> {
    let (first, second) = (member.first_path(), member.second_path());
    if member.pretensioned() {
        check(first.is_empty(), refused::DUCT, 1)?;
        check(second.is_empty(), refused::SECOND_PATH, 2)?;
    }
    for path in member.paths() {
        check_x(member, &path)?;
    }
    if member.has_second_path() {
        let both = member.path_length(&first) + member.path_length(&second);
        check(both.abs_diff(member.field(Length)) <= MOST_APART, refused::PATH_LENGTHS, Length.number())?;
    }
    Ok(())
}

/// The X of a path, if it is not too large.
fn check_x(member: &Member, path: &Path) -> Result<u128, Refusal> {
    let x = member.x(path);
    check(x <= MOST_X, refused::DUCT, 2).map(|()| x)
}

// ---- friction

/// Document 02's W3 takes the powers of X up to this one.
const POWERS_OF_X: u128 = 15;

/// The part of the jacking stress that friction leaves, in 1/T, if X is at most 1.5 T.
fn friction_factor(x: u128) -> u128 {
    (1..=POWERS_OF_X).rev().fold(T, |h, k| T - h * x / (k * T))
}

impl Member {
    fn x_of_segment(&self, segment: usize) -> u128 {
        let (length, rise) = (self.segment(segment, OfSegment::Length), self.segment(segment, OfSegment::Rise));
        let wobble = self.field(Wobble) * length * T / (TICKS * MILLION);
        let curvature = match self.segment_kind(segment) {
            PARABOLA => self.field(Curvature) * 2 * rise * T / (length * MILLION),
            BEND => self.field(Curvature) * rise * T / (TICKS * MILLION),
            _ => 0,
        };
        wobble + curvature
    }

    /// The X of a path or of a part of it.
    pub fn x(&self, path: &Path) -> u128 {
        path.clone().map(|i| self.x_of_segment(i)).sum()
    }

    /// "the stress left, rounded down", of document 02's W3, behind segments of this X.
    fn stress_left(&self, x: u128) -> u128 {
        self.jacked() * friction_factor(x) / T
    }

    /// The stresses before slip along a path, from the jack on: "the stress after j segments takes X of the first j".
    pub fn stresses_along(&self, path: &Path) -> impl Iterator<Item = u128> + '_ {
        let start = path.start;
        (start..=path.end).map(move |end| self.stress_left(self.x(&(start..end))))
    }

    /// In ticks of foot.
    pub fn path_length(&self, path: &Path) -> u128 {
        path.clone().map(|i| self.segment(i, OfSegment::Length)).sum()
    }

    /// What friction takes along a path, document 02's d.
    pub fn friction(&self, path: &Path) -> u128 {
        self.jacked() - self.stress_left(self.x(path))
    }

    /// Document 01's step 2, which document 02's W5 leaves to paths without friction or without length.
    pub fn slip_over_tendon(&self) -> u128 {
        self.field(Es) * self.field(Slip) * TICKS / (INCHES_OF_FOOT * self.field(Length))
    }

    /// A path by itself from the jacking stress, friction and then slip, with nothing checked.
    fn slipped(&self, path: &Path) -> SlippedPath {
        let (x, length, friction) = (self.x(path), self.path_length(path), self.friction(path));
        let anchor_set = AnchorSet::along(length, friction, self.field(Es), self.field(Slip));
        let slip = anchor_set.map_or_else(|| self.slip_over_tendon(), |set| set.drop_at_section());
        SlippedPath { x, length, jacked: self.jacked(), friction, slip, anchor_set }
    }
}

// ---- the elongation sheet

/// The sheet of a member with so many numbers of room, of document 02's W7. It "keeps to the first path", by W9.
pub fn elongation_sheet(member: &Member, room: usize) -> Result<Sheet, Refusal> {
    check_fields(member)?;
    check(!member.pretensioned(), refused::PRETENSIONED, 1)?;
    let x = check_x(member, &member.first_path())?;
    check(room >= member.first_path().len(), refused::BUFFER, 1)?;
    let elongations = Stretch::all(member).map(|stretch| stretch.elongation(member.0[Es.at()])).collect();
    Ok(Sheet { x, elongations })
}

/// What a segment's elongation comes from: the stresses at its two ends before slip, added, and its length in ticks of inch.
#[derive(Debug, Clone, Copy)]
pub struct Stretch {
    pub at_ends: u128,
    pub length: u128,
}

impl Stretch {
    /// Those of the first path's segments, if the duct's check lets its X pass.
    pub fn all(member: &Member) -> impl Iterator<Item = Self> + '_ {
        let path = member.first_path();
        let ends = member.stresses_along(&path).zip(member.stresses_along(&path).skip(1));
        path.zip(ends).map(|(segment, (before, after))| {
            Stretch { at_ends: before + after, length: INCHES_OF_FOOT * member.segment(segment, OfSegment::Length) }
        })
    }

    /// "the mean of the stresses at its ends before slip, times its length over Es, in ticks of inch, rounded down only once".
    pub fn elongation(&self, es: u64) -> u64 {
        (self.at_ends * self.length / (2 * u128::from(es) * TICKS)) as u64
    }

    /// The largest Es by which the elongation comes up to this.
    pub fn largest_es(&self, elongation: u64) -> u64 {
        (self.at_ends * self.length / (2 * u128::from(elongation) * TICKS)) as u64
    }
}

// ---- the losses

impl Paper {
    pub fn new() -> Self {
        Paper { thresholds: thresholds() }
    }

    /// L(h).
    fn logarithm(&self, hour: u128) -> u128 {
        (self.thresholds.partition_point(|&t| u128::from(t) <= hour) - 1) as u128
    }

    /// The run of a member with so many numbers of room in report and scratch.
    pub fn run(&self, member: &Member, report: usize, scratch: usize) -> Answer {
        let mut slipped = None;
        let due = self.steps(member, report, scratch, &mut slipped);
        Answer { due, slipped }
    }

    /// The checks and the steps. What the paths come to at the slip stays in `slipped`, also if the run is refused there or later.
    fn steps(&self, member: &Member, report: usize, scratch: usize, slipped: &mut Option<Slipped>) -> Result<Run, Refusal> {
        check_fields(member)?;
        check_duct(member)?;

        let ages = member.ages();
        check(report >= ROW_NUMBERS * ages, refused::BUFFER, 1)?;
        check(scratch >= SCRATCH_NUMBERS_OF_AGE * ages, refused::BUFFER, 2)?;

        let f = |field: Field| member.field(field);
        let (moist, concrete) = (member.moist(), member.code(Concrete));
        let (curing, transfer, life) = (f(EndOfCuring), f(Transfer), u128::from(LIFE));
        let (es, eci, ec) = (f(Es), f(Eci), f(Ec));
        let (area, inertia, eccentricity, steel_area) = (f(Area), f(Inertia), f(Eccentricity), f(SteelArea));
        let kappa = (steel_area << 32) / area + 4096 * steel_area * eccentricity * eccentricity / inertia;
        check(kappa <= MOST_KAPPA, refused::SECTION, Area.number())?;

        let base = match (moist, concrete) {
            (true, NORMAL) => 95_000_000,
            (true, _) => 76_000_000,
            (false, _) => 63_000_000u128,
        };
        let ucr = base.saturating_sub(20 * ec).max(11_000_000);
        let ush = match concrete {
            NORMAL => 27_000_000_000u128.saturating_sub(3000 * ec),
            _ => 41_000_000_000u128.saturating_sub(10_000 * ec),
        }
        .max(12_000_000_000);
        let scf = along(&SCF, TICKS, None, 102_400, f(VolumeToSurface));
        let ssf = along(&SSF, TICKS, None, 102_400, f(VolumeToSurface));
        let mcf = if moist { along(&MCF, DAY, None, 72_000, transfer) } else { 72_000 };
        let u = ucr * scf * mcf / 439_453_125;
        let shrinkage = ush * ssf / 100_000_000;
        check(u * kappa <= MOST_CREEP, refused::CREEP, SteelArea.number())?;

        let lose = |stress: u128, loss: u128, place: usize| {
            let left = stress.saturating_sub(loss);
            check(left >= LEAST_STRESS, refused::STRESS, place).map(|()| left)
        };
        let lift = |stress: u128, gain: u128, place: usize| {
            let lifted = stress + gain;
            check(member.permits(lifted), refused::OVERSTRESS, place).map(|()| lifted)
        };
        let (d, y) = match member.code(Steel) {
            STRESS_RELIEVED => (2560, 85 * f(UltimateStrength) * TICKS / 100),
            _ => (11_520, 90 * f(UltimateStrength) * TICKS / 100),
        };
        let relax = |stress: u128, logarithms: u128| {
            let q = (stress * T / y).saturating_sub(55 * T / 100).max(5 * T / 100);
            stress * logarithms / d * q / T
        };
        let tensioning = if member.pretensioned() { 0 } else { transfer };
        let log = |hour: u128| self.logarithm((hour - tensioning).max(1));
        let g = |moments: u128| moments * eccentricity / inertia;
        let c = |stress: u128, moments: u128| (stress * kappa >> 32).saturating_sub(g(moments));

        let jacked = member.jacked();
        if !member.has_second_path() {
            // Here 7 looks at what friction leaves before 12 comes; "ahead of any 7 if there are two".
            lose(jacked, member.friction(&member.first_path()), 0)?;
        }
        let second = member.has_second_path().then(|| member.slipped(&member.second_path()));
        let both = *slipped.insert(Slipped { first: member.slipped(&member.first_path()), second });
        for set in both.paths().filter_map(|path| path.anchor_set) {
            check(!set.passes(f(Length)), refused::ANCHOR_SET, Length.number())?;
        }
        let SlippedPath { friction, slip, .. } = both.going_on();
        let mut stress = lose(jacked, friction, 0)?;
        stress = lose(stress, slip, 0)?;
        let deflector = f(DeflectorLoss) * TICKS;
        stress = lose(stress, deflector, 0)?;
        let early = if member.pretensioned() { relax(stress, log(transfer)) } else { 0 };
        stress = lose(stress, early, 0)?;
        let shortening = es * c(stress, f(OwnWeightMoment)) / (eci + (es * kappa >> 32));
        stress = lose(stress, shortening, 0)?;
        let before = [friction, slip, deflector, early, shortening, stress].map(|v| v as u64);

        let creep_share = |hour: u128| along(&CREEP, DAY, Some((life - transfer, 100)), T, hour - transfer);
        let shrinkage_share = |hour: u128| along(&SHRINKAGE, DAY, Some((life - curing, 100)), T, hour - curing);
        let mut rows = Vec::new();
        let (mut start, mut moments) = (transfer, f(OwnWeightMoment));
        for i in 0..ages {
            let hour = member.age(i, OfAge::Hour);
            let w = u * (creep_share(hour) - creep_share(start)) / T;
            let creep = w * c(stress, moments) / T;
            let shrinks = shrinkage * (shrinkage_share(hour) - shrinkage_share(start)) / T;
            let relaxes = relax(stress, log(hour) - log(start));
            stress = lose(stress, creep + shrinks + relaxes, i + 1)?;
            let moments_after = moments + member.age(i, OfAge::Moment);
            let gain = es * (g(moments_after) - g(moments)) / ec;
            stress = lift(stress, gain, i + 1)?;
            rows.push([creep, shrinks, relaxes, stress, gain].map(|v| v as u64));
            (start, moments) = (hour, moments_after);
        }
        Ok(Run { before, rows })
    }
}
