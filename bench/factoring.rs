// The routine of crates/reliability, written by hand in Rust, which both programs beside this file take.

const DEPOTS: usize = 10;
pub const MOST_LANES: usize = 20;
pub const SCRATCH_PLACES: usize = 21;

#[derive(Clone, Copy)]
pub enum Mark {
    Struck,
    Standing,
}

#[derive(Clone, Copy)]
pub struct Lane {
    pub left: u8,
    pub right: u8,
    pub chance: u16,
    pub cost: u32,
    pub mark: Mark,
}

#[derive(Clone, Copy)]
pub struct Scale {
    pub parts: u16,
    pub most: u8,
}

pub struct Network {
    pub scale: Scale,
    pub depots: u8,
    pub lanes: Vec<Lane>,
}

#[derive(Clone, Copy, Debug)]
pub enum Refusal {
    LaneNotGiven,
    TooManyLanesNamed,
    ScratchTooShort,
}

pub trait Semiring: Copy {
    fn zero() -> Self;
    fn one() -> Self;
    fn sum(self, other: Self) -> Self;
    fn product(self, other: Self) -> Self;
    fn running(lane: &Lane, scale: Scale) -> Self;
    fn failing(lane: &Lane, scale: Scale) -> Self;
}

#[derive(Clone, Copy)]
pub struct Share {
    pub parts: u64,
}

impl Share {
    const MOST: u64 = 1_000_000_000_000_000_000;

    fn new(parts: u64) -> Share {
        Share { parts: parts.min(Self::MOST) }
    }
}

impl Semiring for Share {
    fn zero() -> Share {
        Share::new(0)
    }

    fn one() -> Share {
        Share::new(1)
    }

    fn sum(self, other: Share) -> Share {
        Share::new(self.parts + other.parts)
    }

    // Faster here than the product in twice the width.
    fn product(self, other: Share) -> Share {
        Share::new(self.parts.saturating_mul(other.parts))
    }

    fn running(lane: &Lane, _scale: Scale) -> Share {
        Share::new(u64::from(lane.chance))
    }

    fn failing(lane: &Lane, scale: Scale) -> Share {
        Share::new(u64::from(scale.parts.saturating_sub(lane.chance)))
    }
}

fn add_weights<V: Semiring>(lane: &Lane, scale: Scale) -> V {
    V::running(lane, scale).sum(V::failing(lane, scale))
}

fn mix<V: Semiring>(lane: &Lane, scale: Scale, runs: V, fails: V) -> V {
    let runs = V::running(lane, scale).product(runs);
    runs.sum(V::failing(lane, scale).product(fails))
}

fn relabel(labels: &[u8; DEPOTS], from: u8, to: u8) -> [u8; DEPOTS] {
    labels.map(|label| if label == from { to } else { label })
}

struct Task<'a, V> {
    lanes: &'a [Lane],
    scale: Scale,
    rest: &'a [V],
}

// Where two parts are left, from the last lane back.
fn join_two<V: Semiring>(task: &Task<V>, i: usize, labels: &[u8; DEPOTS]) -> V {
    let mut value = V::zero();
    for k in (i..task.lanes.len()).rev() {
        let lane = &task.lanes[k];
        if labels[usize::from(lane.left)] == labels[usize::from(lane.right)] {
            value = add_weights::<V>(lane, task.scale).product(value);
        } else {
            value = mix(lane, task.scale, task.rest[k + 1], value);
        }
    }
    value
}

// Asked only where at least three parts are left, and enough lanes to connect them.
fn factor<V: Semiring>(task: &Task<V>, i: usize, labels: &[u8; DEPOTS], parts: usize) -> V {
    let lane = &task.lanes[i];
    let left = labels[usize::from(lane.left)];
    let right = labels[usize::from(lane.right)];
    let hopeless = parts > task.lanes.len() - i;
    if left == right {
        if hopeless {
            return V::zero();
        }
        let after = factor(task, i + 1, labels, parts);
        return add_weights::<V>(lane, task.scale).product(after);
    }
    let merged = relabel(labels, right, left);
    let runs = if parts == 3 {
        join_two(task, i + 1, &merged)
    } else {
        factor(task, i + 1, &merged, parts - 1)
    };
    if hopeless {
        return V::running(lane, task.scale).product(runs);
    }
    let fails = factor(task, i + 1, labels, parts);
    mix(lane, task.scale, runs, fails)
}

fn factor_lanes<V: Semiring>(lanes: &[Lane], scale: Scale, depots: u8, scratch: &mut [V]) -> V {
    let count = lanes.len();
    scratch[count] = V::one();
    for i in (0..count).rev() {
        scratch[i] = add_weights::<V>(&lanes[i], scale).product(scratch[i + 1]);
    }
    let task = Task { lanes, scale, rest: scratch };
    let labels = std::array::from_fn(|depot| depot as u8);
    let parts = usize::from(depots);
    let value = if parts > count + 1 {
        V::zero()
    } else if parts == 2 {
        join_two(&task, 0, &labels)
    } else {
        factor(&task, 0, &labels, parts)
    };
    scratch[..SCRATCH_PLACES].fill(V::zero());
    value
}

pub fn total<V: Semiring>(network: &Network, set: u32, scratch: &mut [V]) -> Result<V, Refusal> {
    if set >> network.lanes.len() != 0 {
        return Err(Refusal::LaneNotGiven);
    }
    if scratch.len() < SCRATCH_PLACES {
        return Err(Refusal::ScratchTooShort);
    }
    let none = Lane { left: 0, right: 0, chance: 0, cost: 0, mark: Mark::Struck };
    let mut table = [none; MOST_LANES];
    let mut count = 0;
    for (i, lane) in network.lanes.iter().enumerate() {
        if set >> i & 1 == 1 {
            table[count] = *lane;
            count += 1;
        }
    }
    Ok(factor_lanes(&table[..count], network.scale, network.depots, scratch))
}
