//! Every pair asked from both ends, in networks of so few different capacities that many paths have several lightest
//! edges; and the lightest edge of all beside every pair and every side.
use crate::cases;
use crate::model::{Network, Plan, SMALL};
use crate::random::Random;
use crate::same::{pair_reply, same_plan};
use pamzolit::{Link, Node, Refusal};

/// Rows, stars, trees or rings, one or several, or links anywhere; sometimes each link twice. The nodes are shuffled,
/// so that the lowest number may be anywhere on a path.
fn network(random: &mut Random, nodes: usize) -> Network {
    let mut node: Vec<usize> = (0..nodes).collect();
    for i in 1..nodes {
        node.swap(i, random.below(i + 1));
    }
    let parts = if random.chance(30) { 2 + random.below(2) } else { 1 };
    let shape = random.below(5);
    let mut ends = Vec::new();
    for i in parts..nodes {
        let first = i % parts;
        ends.push(match shape {
            0 | 1 => (i, i - parts),
            2 => (i, first),
            3 => (i, first + parts * random.below(i / parts)),
            _ => (i, (i + 1 + random.below(nodes - 1)) % nodes),
        });
        if shape == 1 && i + parts >= nodes {
            ends.push((i, first)); // closes a ring
        }
    }
    if random.chance(30) {
        ends.extend(ends.clone());
    }
    let (least, kinds) = (random.below(2), 1 + random.below(3));
    let link = |(a, b): (usize, usize)| (node[a], node[b], (least + random.below(kinds)) as u32);
    Network { nodes, links: ends.into_iter().map(link).collect() }
}

/// How many paths were asked about, and of which kinds they are by the model.
#[derive(Debug, Default)]
struct Seen {
    pairs: usize,
    /// there are several lightest edges
    ties: usize,
    /// of these the one nearest to s is not the one with the lowest number
    away_from_s: usize,
    /// neither is the one nearest to t
    inside: usize,
}

impl Seen {
    fn count(&mut self, want: &Plan, s: usize, t: usize) {
        let tree = &want.tree;
        let weight = tree.path(s, t).map(|v| tree.weight[v]).min();
        let lightest: Vec<usize> = tree.path(s, t).filter(|&v| Some(tree.weight[v]) == weight).collect();
        let lowest = lightest.iter().min();
        // the sides of an end grow along the path
        let nearest = |end| lightest.iter().min_by_key(|&&v| tree.side(v, end).count_ones());
        self.pairs += 1;
        self.ties += (lightest.len() > 1) as usize;
        self.away_from_s += (nearest(s) != lowest) as usize;
        self.inside += (nearest(s) != lowest && nearest(t) != lowest) as usize;
    }
}

/// The replies from both ends are the model's. They are refused alike, or show the same edge and its two sides.
fn ask(held: &pamzolit::Plan, want: &Plan, s: usize, t: usize, seen: &mut Seen) {
    let (here, there) = (held.pair(Node(s), Node(t)), held.pair(Node(t), Node(s)));
    let what = || format!("pair {s} {t} of {held:?}: {here:?}, from the other end {there:?}");
    match (here, there) {
        (Ok(here), Ok(there)) => {
            let (x, y) = (here.side.bits(), there.side.bits());
            let nodes = held.nodes().fold(0, |all, node| all | 1u64 << node.0);
            assert_eq!((here.weight, here.node), (there.weight, there.node), "{}", what());
            assert_eq!((x & y, x | y, here.size + there.size), (0, nodes, held.node_count()), "{}", what());
            seen.count(want, s, t);
        }
        (here, there) => assert_eq!(here, there, "{}", what()),
    }
    assert_eq!(pair_reply(here), want.pair(s, t), "{}", what());
    assert_eq!(pair_reply(there), want.pair(t, s), "{}", what());
}

/// The lightest of all edges has the least weight of all pairs, and of all sides where they can be tried.
fn lightest_of_all(held: &pamzolit::Plan, want: &Plan) {
    let lightest = held.lightest().map(|edge| edge.weight);
    let pairs = held.nodes().flat_map(|s| held.nodes().filter_map(move |t| held.pair(s, t).ok()));
    assert_eq!(lightest, pairs.map(|pair| pair.weight).min(), "{held:?}");
    if want.net.nodes <= SMALL {
        let all = (1u64 << want.net.nodes) - 1;
        let least = (1..all).map(|side| want.net.value(side)).min();
        assert_eq!(lightest.map(u64::from), least, "{held:?}");
    }
}

/// Every pair of nodes, and of numbers that are none.
fn ask_all(held: &pamzolit::Plan, want: &Plan, seen: &mut Seen) {
    assert!(same_plan(held, want));
    lightest_of_all(held, want);
    let n = want.net.nodes;
    let numbers: Vec<usize> = (0..=n).chain([64, usize::MAX]).collect();
    for (i, &t) in numbers.iter().enumerate() {
        for &s in &numbers[..=i] {
            ask(held, want, s, t, seen);
        }
    }
    assert_eq!(held.pair(Node(0), Node(0)), Err(Refusal::SameNode));
    assert_eq!(held.pair(Node(n), Node(n)), Err(Refusal::NoSuchNode));
}

/// A network is asked as it is, after each of some changes, and after each of some undos.
fn one_network(random: &mut Random, nodes: usize, most_changes: usize, seen: &mut Seen) {
    let net = network(random, nodes);
    let file = net.file();
    let (mut held, mut want) = (pamzolit::Plan::open(&file).unwrap(), Plan::open(&file).unwrap());
    ask_all(&held, &want, seen);
    let changes = if net.links.is_empty() { 0 } else { random.below(most_changes + 1) };
    for _ in 0..changes {
        let (k, capacity) = (random.below(net.links.len()), random.below(4) as u32);
        assert_eq!(held.change(Link(k), capacity).ok(), want.change(k, capacity).ok());
        ask_all(&held, &want, seen);
    }
    for _ in 0..random.below(want.stack.len() + 1) {
        assert_eq!(held.undo().ok(), want.undo().ok());
        ask_all(&held, &want, seen);
    }
}

fn must_have_seen_ties(seen: Seen) {
    println!("{seen:?}, 0 disagreements");
    assert!(seen.ties > seen.pairs / 4, "{seen:?}");
    assert!(seen.away_from_s > seen.ties / 8 && seen.inside > seen.ties / 40, "{seen:?}");
}

#[test]
fn both_ends() {
    let mut random = Random::new(10);
    let mut seen = Seen::default();
    for i in 0..cases("PAMZOLIT_HISTORIES", 20_000) / 10 {
        one_network(&mut random, 1 + i % 10, 3, &mut seen);
    }
    must_have_seen_ties(seen);
}

#[test]
fn both_ends_of_large_networks() {
    let mut random = Random::new(11);
    let mut seen = Seen::default();
    for i in 0..cases("PAMZOLIT_HISTORIES", 20_000) / 400 {
        let nodes = if i % 4 == 0 { 64 } else { 11 + random.below(54) };
        one_network(&mut random, nodes, 2, &mut seen);
    }
    must_have_seen_ties(seen);
}
