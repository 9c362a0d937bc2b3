//! Calls on a plan, drawn at random.
use crate::model::{CAPACITY, Plan};
use crate::random::Random;

#[derive(Clone, Copy, Debug)]
pub enum Call {
    Change { link: usize, capacity: u32 },
    Undo,
    Pair { s: usize, t: usize },
    Preview { link: usize, capacity: u32, s: usize, t: usize },
    Flow { s: usize, t: usize, length: usize },
    Headroom { s: usize, t: usize, demand: u32 },
    Write { length: usize },
}

/// A number below `count` most of the time, else one that is not, far away or with the low bits of one that is.
pub fn index(random: &mut Random, count: usize) -> usize {
    if count > 0 && !random.chance(5) {
        return random.below(count);
    }
    match random.below(4) {
        0 => usize::MAX - random.below(2),
        1 => (1 << 32) + random.below(count + 1),
        2 => (1 << (8 + random.below(8))) + count,
        _ => count + random.below(3),
    }
}

/// A link's new capacity, most of the time one that it may have.
fn capacity(random: &mut Random) -> u32 {
    match random.below(20) {
        0 => CAPACITY + 1 + random.below(9) as u32,
        1 => u32::MAX - random.below(2) as u32,
        _ => random.capacity(),
    }
}

/// A call on a plan like this one. Where the stack is to be filled, a change stands for an undo.
pub fn random_call(random: &mut Random, plan: &Plan, filling: bool) -> Call {
    let (n, m) = (plan.net.nodes, plan.net.links.len());
    match random.below(19) {
        6..=8 if !filling => Call::Undo,
        0..=8 => Call::Change { link: index(random, m), capacity: capacity(random) },
        9 | 10 => Call::Pair { s: index(random, n), t: index(random, n) },
        11 | 12 => Call::Flow {
            s: index(random, n),
            t: index(random, n),
            length: if random.chance(8) { random.below(300) } else { m },
        },
        13 | 14 => Call::Headroom {
            s: index(random, n),
            t: index(random, n),
            demand: match random.below(4) {
                0 => random.below(20) as u32,
                1 => random.below(20_000_000) as u32,
                2 => 1_000_000_000 + random.below(2) as u32,
                _ => u32::MAX - random.below(2) as u32,
            },
        },
        15..=17 => Call::Preview {
            link: index(random, m),
            capacity: capacity(random),
            s: index(random, n),
            t: index(random, n),
        },
        _ => {
            let length = plan.net.file().len();
            Call::Write { length: if random.chance(30) { random.below(2000) } else { length - 1 + random.below(3) } }
        }
    }
}
