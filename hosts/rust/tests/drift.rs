//! Document 02's W8 on the report program, over pairs of random cards that differ only in jacking stress, by d psi: after the same step the
//! two stresses differ by at most d psi and 2 psi more for each step done. That the core keeps them within d psi alone is held as well. The
//! program prints for each card what the papers' method, as the tests write it, gives; along the paths, of which it prints only the end of
//! one, the stresses are those of that method. Cards are left out whose slip follows W5, on either path where there are two.

mod paper;
mod program;
mod random;

use paper::Field::*;
use paper::{age, printed_numbers, range, read_card, refused, segment, Answer, Field, Member, Paper, Run, Slipped};
use paper::{AGE_LINE_NUMBERS, BEFORE_NUMBERS, COLUMNS, HEAD_FIELDS, LEAST_AGES, LIFE, MOST_AGES, PRETENSIONED, SEGMENT_FIELDS};
use paper::{STRAIGHT, STRESS_RELIEVED, TICKS};
use program::{on_threads, printed, program};
use random::{bend, hold_kinds, largest, length_of_paths, lines_of, losses, member, paths_of, segments_of, with_columns};
use random::{Random, LEAST_COUNT};
use std::path::Path;

/// Pairs that are compared, a process for each card, of which at least one in so many has a second path.
const PAIRS: usize = 20_000;
const PAIRS_TO_A_SECOND_PATH: usize = 3;

/// Members that are tried for a pair at the most.
const MOST_TRIES: usize = 1000;

/// "2 psi for each step done", of document 02's W8.
const PSI_OF_STEP: u64 = 2;

const TICKS_OF_PSI: u64 = TICKS as u64;

/// Slip, early relaxation and shortening, which are steps beside segments and ages.
const STEPS_BESIDE: usize = 3;

/// Jacking stresses are far apart from here on, in psi.
const FAR_APART: u64 = 10_000;

/// Some pair has to come so far apart behind a change of places, as a part of d, or the steepest losses were not tried.
const LEAST_SWAPPED_PART: f64 = 0.7;

// ---- members

/// Turns the paths into bends: they have friction then, but no length, and the slip goes by the tendon's length. Two such paths meet none
/// but a tendon of a foot, in which little slip is borne.
fn bend_everywhere(r: &mut Random, f: &mut [u64]) {
    let [_, second] = paths_of(f);
    segments_of(f, &(0..second.end)).for_each(|fields| fields.copy_from_slice(&bend(r)));
    if !second.is_empty() {
        (f[Length.at()], f[Slip.at()]) = (*range(Length).start(), r.pick(&[0, 1, 4, 16]));
    }
}

/// Turns one path into bends, which have friction but no length, and the other into straights, which have no friction: the slip goes by the
/// tendon's length on both.
fn bend_one_path(r: &mut Random, f: &mut [u64]) {
    let mut paths = paths_of(f);
    if r.one_in(2) {
        paths.reverse();
    }
    let [bends, straights] = paths;
    segments_of(f, &bends).for_each(|fields| fields.copy_from_slice(&bend(r)));
    segments_of(f, &straights).for_each(|fields| fields.copy_from_slice(&segment(STRAIGHT, r.between(1024, 32_768), 0)));
    (f[Wobble.at()], f[Length.at()]) = (0, length_of_paths(f).max(*range(Length).start()));
}

/// Takes the friction from the ducts, and the slip goes by the tendon's length.
fn without_friction(f: &mut [u64]) {
    [Wobble, Curvature].into_iter().for_each(|field| f[field.at()] = 0);
}

/// Gives a member the fewest ages, one an hour from here on, and no moment with them.
fn age_hourly_from(hour: u64, f: &mut Vec<u64>) {
    f.truncate(HEAD_FIELDS + SEGMENT_FIELDS * paths_of(f)[1].end);
    f[Ages.at()] = LEAST_AGES;
    f.extend((hour..).take(LEAST_AGES as usize).flat_map(|hour| age(hour, 0)));
}

/// The number of the refusal that a member's losses give with another number in a field.
fn refusal_with(paper: &Paper, f: &[u64], field: Field, number: u64) -> Option<u64> {
    let mut other = Member(f.to_vec());
    other.0[field.at()] = number;
    losses(paper, &other).due.err().map(|(number, _)| number)
}

/// "at most 0.80 F", of document 01.
fn most_jacking_stress(f: &[u64]) -> u64 {
    f[UltimateStrength.at()] * 8 / 10
}

/// Makes the losses grow with the stress as fast as they can, so that they outgrow it: stress-relieved steel, jacked as high as it may be,
/// as much of it as 5 and 6 let pass; a concrete of the least Ec, with the most or the least shortening at transfer; nearly the whole life
/// in one interval. The own weight takes just so much of the creep away that 7 lets the member pass, or somewhat more.
fn steepen(r: &mut Random, paper: &Paper, f: &mut Vec<u64>) {
    let ((least_es, most_es), (least_eci, most_eci)) = (range(Es).into_inner(), range(Eci).into_inner());
    (f[Es.at()], f[Eci.at()]) = r.pick(&[(least_es, most_eci), (most_es, least_eci)]);
    f[Ec.at()] = *range(Ec).start();
    f[Steel.at()] = STRESS_RELIEVED;
    f[JackingStress.at()] = most_jacking_stress(f);
    age_hourly_from(LIFE + 1 - LEAST_AGES, f);
    let section_refusals = [refused::SECTION, refused::CREEP].map(Some);
    let section_passes = |steel_area: u64| !section_refusals.contains(&refusal_with(paper, f, SteelArea, steel_area));
    f[SteelArea.at()] = largest(range(SteelArea), section_passes);
    let loses_too_much = |moment: u64| refusal_with(paper, f, OwnWeightMoment, moment) == Some(refused::STRESS);
    let too_light = largest(range(OwnWeightMoment), loses_too_much);
    f[OwnWeightMoment.at()] = too_light + r.between(1, 1 + too_light / 8);
}

/// Leaves a member hardly any losses that grow with its stress: little steel in a large section, and ages right after transfer.
fn ease(f: &mut Vec<u64>) {
    [Area, Inertia].into_iter().for_each(|field| f[field.at()] = *range(field).end());
    f[SteelArea.at()] = *range(SteelArea).start();
    age_hourly_from(f[Transfer.at()] + 1, f);
}

/// The fields of a member for a pair. As a rule its ducts, if it has any, are such that document 02's W5 does not rule. At times its losses
/// are as steep as they can be, or hardly any.
fn member_of_pair(r: &mut Random, paper: &Paper) -> Vec<u64> {
    let mut f = member(r);
    match r.below(8) {
        0..=1 if f[SecondSegments.at()] > 0 => bend_one_path(r, &mut f),
        0..=3 => bend_everywhere(r, &mut f),
        4..=6 => without_friction(&mut f),
        _ => {}
    }
    match r.below(8) {
        0..=1 => steepen(r, paper, &mut f),
        2 => ease(&mut f),
        _ => {}
    }
    f
}

/// Another jacking stress for these fields: often 1 psi more or less, else some psi or hundreds of psi, or any that may be.
fn other_jacking_stress(r: &mut Random, f: &[u64]) -> u64 {
    let jacked = f[JackingStress.at()];
    let apart = match r.below(8) {
        0..=2 => 1,
        3..=4 => r.between(2, 20),
        5..=6 => r.between(100, 999),
        _ => return r.between(*range(JackingStress).start(), most_jacking_stress(f)),
    };
    if r.one_in(2) { jacked + apart } else { jacked - apart }
}

// ---- pairs

/// A card that document 02's W8 is about, its member, and what the papers give for this: its paths at the slip, and its run.
struct JackedCard {
    card: Vec<u8>,
    member: Member,
    slipped: Slipped,
    run: Run,
}

/// A stress in ticks, and the steps that are done there.
struct Stress {
    steps_done: usize,
    ticks: u64,
}

impl JackedCard {
    /// None if the card is refused, or if "either path follows W5" of document 02.
    fn new(paper: &Paper, card: Vec<u8>) -> Option<Self> {
        let member = read_card(&card).ok()?;
        let Answer { due: Ok(run), slipped: Some(slipped) } = losses(paper, &member) else { return None };
        let follows_w5 = slipped.paths().any(|path| path.anchor_set.is_some());
        (!follows_w5).then_some(JackedCard { card, member, slipped, run })
    }

    fn jacking_stress(&self) -> u64 {
        self.member.0[JackingStress.at()]
    }

    /// "Steps count s + n + 3", of document 01, and "the segments of both paths", of document 02's W9.
    fn steps(&self) -> usize {
        self.member.segments() + self.member.ages() + STEPS_BESIDE
    }

    /// What the program prints for the card, held to the papers.
    fn report(&self, program: &Path) -> String {
        let report = printed(program, &self.card).expect("it ends well");
        assert_eq!(report, self.run.report(&self.member), "the report of {:?}", self.member);
        report
    }

    /// The stresses after every step and after the deflector loss, from what is printed. A report does not have those after each segment:
    /// these are the tests' own, along the first path and then along the second, and at the end of the path that goes on they have to agree
    /// with the friction that is printed. The stress after slip is the larger of the two.
    fn stresses(&self, report: &str) -> Vec<Stress> {
        let mut lines = report.lines();
        let before: [u64; BEFORE_NUMBERS] = printed_numbers(lines.next().expect("its first line"));
        let [friction, slip, deflector, early_relaxation, _shortening, after_shortening] = before;
        let paths = self.member.paths();
        let after_friction = self.member.jacked() as u64 - friction;
        let mut at_ends = paths.iter().filter_map(|path| self.member.stresses_along(path).last());
        assert!(at_ends.any(|stress| stress as u64 == after_friction), "friction of {:?}", self.member);
        let after_slip = after_friction - slip;
        assert!(self.slipped.paths().all(|path| path.left() <= i128::from(after_slip)), "the larger stress of {:?}", self.member);
        let after_deflector = after_slip - deflector;
        let after_early_relaxation = after_deflector - early_relaxation;

        let along_paths = paths.iter().flat_map(|path| self.member.stresses_along(path).skip(1)).map(|stress| stress as u64);
        let after_ages = lines.map(|line| {
            let [_number, _hour, _creep, _shrinkage, _relaxation, stress, _gain]: [u64; AGE_LINE_NUMBERS] = printed_numbers(line);
            stress
        });
        let up_to_slip = along_paths.chain([after_slip]);
        let from_deflector = [after_deflector, after_early_relaxation, after_shortening].into_iter().chain(after_ages);
        // The deflector loss "is exact and no step", so that as many are done after it as after slip.
        let stresses = (1..).zip(up_to_slip).chain((self.member.segments() + 1..).zip(from_deflector));
        stresses.map(|(steps_done, ticks)| Stress { steps_done, ticks }).collect()
    }
}

/// Two cards that differ in nothing but the columns of their jacking stress.
struct Pair {
    lower: JackedCard,
    higher: JackedCard,
}

/// How far two stresses are apart after the same step, in ticks, and whether the member jacked higher has the smaller one.
struct Distance {
    ticks: u64,
    swapped: bool,
}

impl Pair {
    fn new(r: &mut Random, paper: &Paper) -> Self {
        (0..MOST_TRIES).find_map(|_| Pair::tried(r, paper)).expect("one of so many members makes a pair")
    }

    fn tried(r: &mut Random, paper: &Paper) -> Option<Self> {
        let f = member_of_pair(r, paper);
        let card = lines_of(r, &f).into_bytes();
        let other_card = with_columns(&card, JackingStress, &format!("{:COLUMNS$}", other_jacking_stress(r, &f)));
        let (one, other) = (JackedCard::new(paper, card)?, JackedCard::new(paper, other_card)?);
        let (lower, higher) = if one.jacking_stress() < other.jacking_stress() { (one, other) } else { (other, one) };
        (lower.jacking_stress() < higher.jacking_stress()).then_some(Pair { lower, higher })
    }

    /// W8's d, in psi.
    fn psi_apart(&self) -> u64 {
        self.higher.jacking_stress() - self.lower.jacking_stress()
    }

    /// Holds the two stresses together after every step and after the deflector loss, and gives how far they are apart.
    fn distances(&self, program: &Path) -> Vec<Distance> {
        let [lower, higher] = [&self.lower, &self.higher].map(|jacked| jacked.stresses(&jacked.report(program)));
        let (last, steps) = (lower.last().expect("an age"), self.lower.steps());
        let with_deflector = steps + 1;
        assert_eq!((last.steps_done, lower.len(), higher.len()), (steps, with_deflector, with_deflector), "of {:?}", self.lower.member);
        lower.iter().zip(&higher).map(|(lower, higher)| self.distance(lower, higher)).collect()
    }

    /// "the two stresses must differ by no more than d plus 2 psi for each step done"; and the core does better.
    fn distance(&self, lower: &Stress, higher: &Stress) -> Distance {
        let (apart, ticks, steps_done) = (self.psi_apart(), lower.ticks.abs_diff(higher.ticks), lower.steps_done);
        let what = || format!("{ticks} ticks apart after step {steps_done}, {apart} psi at the jack, of {:?}", self.lower.member);
        assert_eq!(steps_done, higher.steps_done, "{}", what());
        assert!(ticks <= (apart + PSI_OF_STEP * steps_done as u64) * TICKS_OF_PSI, "{}", what());
        assert!(ticks <= apart * TICKS_OF_PSI, "within W8, but {}", what());
        Distance { ticks, swapped: higher.ticks < lower.ticks }
    }
}

/// How many pairs are of each kind below, and the largest part of d at which a pair that is swapped is apart.
#[derive(Default)]
struct PairTally {
    a_psi_apart: usize,
    far_apart: usize,
    pretensioned: usize,
    without_segments: usize,
    bends: usize,
    without_friction: usize,
    second_paths: usize,
    second_goes_on: usize,
    first_goes_on: usize,
    friction_on_both: usize,
    ties: usize,
    low_relaxation: usize,
    slips: usize,
    deflectors: usize,
    early_relaxations: usize,
    most_ages: usize,
    gains: usize,
    as_far_after_slip: usize,
    as_far_at_end: usize,
    nearer_at_end: usize,
    swapped: usize,
    largest_swapped_part: f64,
}

impl PairTally {
    fn count(&mut self, pair: &Pair, distances: &[Distance]) {
        let Pair { lower: JackedCard { member, slipped, run, .. }, .. } = pair;
        let (segments, pretensioned) = (member.segments(), member.0[Kind.at()] == PRETENSIONED);
        self.a_psi_apart += usize::from(pair.psi_apart() == 1);
        self.far_apart += usize::from(pair.psi_apart() >= FAR_APART);
        self.pretensioned += usize::from(pretensioned);
        self.without_segments += usize::from(!pretensioned && segments == 0);
        self.bends += usize::from(slipped.paths().any(|path| path.length == 0 && path.x > 0));
        self.without_friction += usize::from(slipped.paths().any(|path| path.length > 0 && path.x == 0));
        self.count_second_path(slipped);
        let [_friction, slip, deflector, early_relaxation, _shortening, _stress] = run.before;
        self.low_relaxation += usize::from(member.0[Steel.at()] != STRESS_RELIEVED);
        self.slips += usize::from(slip > 0);
        self.deflectors += usize::from(deflector > 0);
        self.early_relaxations += usize::from(early_relaxation > 0);
        self.most_ages += usize::from(run.rows.len() == MOST_AGES as usize);
        self.gains += usize::from(run.gains());
        let (after_slip, after_ages) = (&distances[segments], &distances[distances.len() - run.rows.len()..]);
        self.count_distances(pair.psi_apart() * TICKS_OF_PSI, after_slip, after_ages);
    }

    fn count_second_path(&mut self, slipped: &Slipped) {
        let Slipped { first, second: Some(second) } = slipped else { return };
        let (of_first, of_second) = (first.left(), second.left());
        self.second_paths += 1;
        self.first_goes_on += usize::from(of_first > of_second);
        self.second_goes_on += usize::from(of_first < of_second);
        self.ties += usize::from(of_first == of_second);
        self.friction_on_both += usize::from(first.friction > 0 && second.friction > 0 && first.friction != second.friction);
    }

    /// Of a pair so many ticks apart at the jack.
    fn count_distances(&mut self, at_jack: u64, after_slip: &Distance, after_ages: &[Distance]) {
        let at_end = after_ages.last().expect("an age").ticks;
        self.as_far_after_slip += usize::from(after_slip.ticks == at_jack);
        self.as_far_at_end += usize::from(at_end == at_jack);
        self.nearer_at_end += usize::from(at_end < at_jack);
        let swapped = after_ages.iter().filter(|distance| distance.swapped).map(|distance| distance.ticks).max();
        self.swapped += usize::from(swapped.is_some());
        self.largest_swapped_part = self.largest_swapped_part.max(swapped.unwrap_or(0) as f64 / at_jack as f64);
    }

    fn hold(&self) {
        let kinds = [
            ("pairs 1 psi apart at the jack", self.a_psi_apart),
            ("pairs 10,000 psi apart or more", self.far_apart),
            ("pretensioned pairs", self.pretensioned),
            ("post-tensioned pairs without segments", self.without_segments),
            ("pairs with a path of bends only, with friction", self.bends),
            ("pairs with a path of some length, but no friction", self.without_friction),
            ("pairs with two paths, of which the first goes on", self.first_goes_on),
            ("pairs with two paths, of which the second goes on", self.second_goes_on),
            ("pairs with two paths and other friction on each", self.friction_on_both),
            ("pairs with two paths and the same stress on both", self.ties),
            ("pairs with low-relaxation steel", self.low_relaxation),
            ("pairs with a slip", self.slips),
            ("pairs with a deflector loss", self.deflectors),
            ("pairs with early relaxation", self.early_relaxations),
            ("pairs with the most ages", self.most_ages),
            ("pairs with a gain", self.gains),
            ("pairs d psi apart after slip", self.as_far_after_slip),
            ("pairs d psi apart after the last step", self.as_far_at_end),
            ("pairs less than d psi apart there", self.nearer_at_end),
            ("pairs where the member jacked higher has the smaller stress at some age", self.swapped),
        ];
        hold_kinds(PAIRS, &kinds.map(|(kind, count)| (kind, count, LEAST_COUNT)));
        hold_kinds(PAIRS, &[("pairs with two paths", self.second_paths, PAIRS / PAIRS_TO_A_SECOND_PATH)]);
        println!("the largest part of d by which such a pair is apart then: {:.4}", self.largest_swapped_part);
        assert!(self.largest_swapped_part >= LEAST_SWAPPED_PART, "no pair comes as far apart as {LEAST_SWAPPED_PART} d");
    }
}

#[test]
fn pairs() {
    let (program, paper) = (program("report"), Paper::new());
    let mut r = Random(0x5EED_0005_D41F);
    let pairs: Vec<Pair> = (0..PAIRS).map(|_| Pair::new(&mut r, &paper)).collect();
    let distances = on_threads(&pairs, |_, pair| pair.distances(&program));
    let mut tally = PairTally::default();
    pairs.iter().zip(&distances).for_each(|(pair, distances)| tally.count(pair, distances));
    tally.hold();
}
