// The search of crates/search under the bound of crates/bounds, and the program of crates/search_bench, written by hand in Rust.
// search ROUNDS [PARTS] writes the line that search_bench writes: rounds, microseconds, checksum, openings.
mod factoring;

use factoring::{total, Lane, Mark, Network, Refusal, Scale, Semiring, Share, MOST_LANES, SCRATCH_PLACES};
use std::time::Instant;

const DEPOTS: u8 = 10;
const MOST_PENDING: usize = 21;
const CHORDS: u8 = 10;

// A search of twenty lanes takes no more.
const OPENINGS: u32 = 2_097_151;

// The goals are in parts of the second power of the scale.
const PLACES: u8 = 2;

impl Scale {
    fn full(self) -> u64 {
        u64::from(self.parts).pow(u32::from(self.most))
    }
}

impl Network {
    fn sum_costs(&self, set: u32) -> u32 {
        let mut cost = 0;
        for (i, lane) in self.lanes.iter().enumerate() {
            if set >> i & 1 == 1 {
                cost += lane.cost;
            }
        }
        cost
    }

    fn standing(&self) -> u32 {
        let mut set = 0;
        for (i, lane) in self.lanes.iter().enumerate() {
            if matches!(lane.mark, Mark::Standing) {
                set |= 1 << i;
            }
        }
        set
    }
}

fn chance(network: &Network, set: u32) -> Result<u64, Refusal> {
    if set >> network.lanes.len() != 0 {
        return Err(Refusal::LaneNotGiven);
    }
    let most = u32::from(network.scale.most);
    if set.count_ones() > most {
        return Err(Refusal::TooManyLanesNamed);
    }
    let mut scratch = [Share::zero(); SCRATCH_PLACES];
    let share = total(network, set, &mut scratch)?;
    Ok(share.parts * u64::from(network.scale.parts).pow(most - set.count_ones()))
}

#[derive(Clone, Copy)]
struct Question<'a> {
    network: &'a Network,
    picked: u32,
    undecided: u32,
}

impl Question<'_> {
    fn is_lawful(&self) -> bool {
        let standing = self.network.standing();
        self.picked & self.undecided == 0
            && self.picked & !standing == 0
            && self.undecided & !standing == 0
            && self.picked.count_ones() <= u32::from(self.network.scale.most)
    }
}

trait Bound {
    fn tell(&self, question: Question) -> u64;
}

struct Depot;

// What one depot gives, by the set's lanes at it.
fn number_at(network: &Network, set: u32, depot: u8) -> u64 {
    let parts = u64::from(network.scale.parts);
    let most = u32::from(network.scale.most);
    let mut count = 0;
    let mut fail = 1u64;
    for (i, lane) in network.lanes.iter().enumerate() {
        if set >> i & 1 == 1 && (lane.left == depot || lane.right == depot) {
            count += 1;
            fail = fail.saturating_mul(parts.saturating_sub(u64::from(lane.chance)));
        }
    }
    let full = network.scale.full();
    if count > most {
        full
    } else {
        full - fail * parts.pow(most - count)
    }
}

impl Bound for Depot {
    fn tell(&self, question: Question) -> u64 {
        let mut least = question.network.scale.full();
        if !question.is_lawful() {
            return least;
        }
        for depot in 0..question.network.depots {
            least = least.min(number_at(question.network, question.picked | question.undecided, depot));
        }
        least
    }
}

struct Whole;

impl Bound for Whole {
    fn tell(&self, question: Question) -> u64 {
        let full = question.network.scale.full();
        if !question.is_lawful() {
            return full;
        }
        chance(question.network, question.picked | question.undecided).unwrap_or(full)
    }
}

struct Lesser<A, B> {
    first: A,
    second: B,
}

impl<A: Bound, B: Bound> Bound for Lesser<A, B> {
    fn tell(&self, question: Question) -> u64 {
        self.first.tell(question).min(self.second.tell(question))
    }
}

#[derive(Clone, Copy)]
struct Branch {
    picked: u32,
    undecided: u32,
}

enum Opening {
    Dropped,
    Missed,
    Reached,
    Split { without: Branch, with_lane: Branch },
}

#[derive(Clone, Copy)]
struct Target<'a> {
    network: &'a Network,
    least: u64,
}

fn is_too_dear(network: &Network, best: Option<u32>, picked: u32) -> bool {
    best.is_some_and(|set| network.sum_costs(set) <= network.sum_costs(picked))
}

fn decide<B: Bound>(goal: Target, bound: &B, best: Option<u32>, branch: Branch) -> Opening {
    let Branch { picked, undecided } = branch;
    let network = goal.network;
    if is_too_dear(network, best, picked)
        || picked.count_ones() > u32::from(network.scale.most)
        || bound.tell(Question { network, picked, undecided }) < goal.least
    {
        return Opening::Dropped;
    }
    if undecided == 0 {
        return match chance(network, picked) {
            Ok(parts) if parts >= goal.least => Opening::Reached,
            _ => Opening::Missed,
        };
    }
    let lane = 1 << (31 - undecided.leading_zeros());
    let undecided = undecided - lane;
    Opening::Split {
        without: Branch { picked, undecided },
        with_lane: Branch { picked: picked + lane, undecided },
    }
}

struct Search {
    pending: Vec<Branch>,
    best: Option<u32>,
    openings: u32,
}

impl Search {
    fn restart(&mut self, network: &Network) {
        self.pending.clear();
        self.best = None;
        self.openings = 0;
        self.pending.push(Branch { picked: 0, undecided: network.standing() });
    }

    fn open_many<B: Bound>(&mut self, goal: Target, bound: &B, openings: u32) {
        for _ in 0..openings {
            let Some(branch) = self.pending.pop() else {
                return;
            };
            match decide(goal, bound, self.best, branch) {
                Opening::Dropped | Opening::Missed => (),
                Opening::Reached => self.best = Some(branch.picked),
                Opening::Split { without, with_lane } => {
                    self.pending.push(with_lane);
                    self.pending.push(without);
                }
            }
            self.openings += 1;
        }
    }
}

struct Sheet<B> {
    network: Network,
    bound: B,
    least: u64,
    seeking: Search,
}

impl<B: Bound> Sheet<B> {
    fn state_goal(&mut self, places: u8, parts: u64) {
        let scale = self.network.scale;
        self.least = parts * u64::from(scale.parts).pow(u32::from(scale.most - places));
        self.seeking.restart(&self.network);
    }

    fn grant(&mut self, openings: u32) {
        let target = Target { network: &self.network, least: self.least };
        self.seeking.open_many(target, &self.bound, openings);
    }
}

type Planner = Sheet<Lesser<Depot, Whole>>;

// A scale with K, the least chance of a lane, and a goal that is hard to reach.
#[derive(Clone, Copy)]
struct Case {
    parts: u16,
    most: u8,
    low: u16,
    goal: u64,
}

const TENTHS: Case = Case { parts: 10, most: 18, low: 5, goal: 75 };
const SIXTEENTHS: Case = Case { parts: 16, most: 14, low: 10, goal: 180 };

struct Draws {
    last: u32,
}

impl Draws {
    // The low bits of these numbers repeat soon, so they are left out.
    fn next(&mut self) -> u32 {
        self.last = self.last.wrapping_mul(1_103_515_245).wrapping_add(12_345) % 0x8000_0000;
        self.last / 65_536
    }
}

fn lane(case: Case, draws: &mut Draws, left: u8, step: u8) -> Lane {
    let chance = case.low + (draws.next() % 5) as u16;
    let cost = 1 + draws.next() % 1000;
    Lane { left, right: (left + step) % DEPOTS, chance, cost, mark: Mark::Standing }
}

// A ring of ten depots, and ten chords.
fn build(case: Case, number: u32) -> Planner {
    let mut draws = Draws { last: number };
    let mut lanes = Vec::with_capacity(MOST_LANES);
    for left in 0..DEPOTS {
        lanes.push(lane(case, &mut draws, left, 1));
    }
    for _ in 0..CHORDS {
        let left = (draws.next() % 10) as u8;
        let step = 2 + (draws.next() % 7) as u8;
        lanes.push(lane(case, &mut draws, left, step));
    }
    let scale = Scale { parts: case.parts, most: case.most };
    let pending = Vec::with_capacity(MOST_PENDING);
    Sheet {
        network: Network { scale, depots: DEPOTS, lanes },
        bound: Lesser { first: Depot, second: Whole },
        least: 0,
        seeking: Search { pending, best: None, openings: 0 },
    }
}

// What the searches found, in one number, and their openings.
fn sum_up(sheets: &mut [Planner], goal: u64) -> Result<(u64, u64), Refusal> {
    let (mut checksum, mut openings) = (0u64, 0);
    let mut mix = |number| checksum = checksum.wrapping_mul(31).wrapping_add(number);
    for sheet in sheets {
        sheet.state_goal(PLACES, goal);
        sheet.grant(OPENINGS);
        if let Some(set) = sheet.seeking.best {
            mix(u64::from(set));
            mix(u64::from(sheet.network.sum_costs(set)));
            mix(chance(&sheet.network, set)?);
        }
        mix(u64::from(sheet.seeking.openings));
        openings += u64::from(sheet.seeking.openings);
    }
    Ok((checksum, openings))
}

fn main() -> Result<(), Refusal> {
    let mut words = std::env::args().skip(1).map(|word| word.parse().expect("a number"));
    let Some(count) = words.next() else {
        return Ok(());
    };
    let case = match words.next() {
        None | Some(10) => TENTHS,
        Some(16) => SIXTEENTHS,
        Some(_) => panic!("the scale is 10 or 16"),
    };
    let mut sheets: Vec<Planner> = (0..count).map(|number| build(case, number)).collect();
    let start = Instant::now();
    let (checksum, openings) = sum_up(&mut sheets, case.goal)?;
    let micros = start.elapsed().as_micros();
    println!("{count} {micros} {checksum} {openings}");
    Ok(())
}
