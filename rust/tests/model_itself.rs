//! The model against the readings and against files by hand, its two ways to a least cut against each other, its pairs
//! against a walk in the tree, its lightest edge against every side and every pair, its previews against sentences and
//! table, its gate windows against values by hand and against each other, and the stored listings against the model.
mod model;
mod random;
use model::window::{self, List, Told, shown};
use model::{Fault, Network, Plan, Tree};
use random::Random;
use std::fs;
use std::path::Path;

const RESORT_A: [u8; 17] = [4, 5, 0, 1, 5, 1, 2, 3, 2, 3, 4, 0, 3, 2, 0, 2, 1];

#[test]
fn resort_a() {
    let plan = Plan::open(&RESORT_A).unwrap();
    assert_eq!(plan.tree.parent, [0, 0, 0, 2]);
    assert_eq!(plan.tree.weight, [0, 8, 6, 6]);
    assert_eq!(plan.tree.steps[1..].iter().map(|s| s.1).collect::<Vec<_>>(), [2, 12, 8]);
    assert_eq!(plan.pair(3, 1), Ok((6, 2, 12, 2)));
    assert_eq!(plan.pair(1, 3), Ok((6, 2, 3, 2)));
    assert_eq!(plan.tree.lightest(), (2, 6));
    let mut lower = plan.clone();
    assert_eq!(lower.change(1, 1), Ok(1));
    assert_eq!((&lower.tree.weight[1..], lower.tree.lightest()), (&[6, 4, 6][..], (2, 4)));
    let mut other = plan.clone();
    assert_eq!(other.change(3, 4), Ok(2));
    assert_eq!(other.tree.weight, [0, 8, 8, 8]);
    assert_eq!(other.tree.lightest(), (1, 8));
    assert_eq!(other.undo(), Ok(3));
    assert_eq!((&other.tree, other.tree.lightest()), (&plan.tree, (2, 6)));
}

/// Worked out by hand: of files with a number of the longest kind and its neighbours the capacity that is read, or
/// number and place of the refusal; P9 among them.
#[test]
fn numbers_of_four_groups() {
    let cases: [(&[u8], Result<u32, (u32, usize)>); 32] = [
        // ended behind one, two and three bytes
        (&[0x80], Err((1, 0))),
        (&[0x80, 0x80], Err((1, 0))),
        (&[0x80, 0x80, 0x80], Err((1, 0))),
        (&[2, 0xff, 0xff, 0xff], Err((1, 1))),
        (&[2, 1, 0, 1, 0x80, 0xa4, 0xe8], Err((1, 4))),
        // a fourth byte with the top bit set
        (&[0x80, 0x80, 0x80, 0x80], Err((2, 0))),
        (&[0x80, 0x80, 0x80, 0x80, 0], Err((2, 0))),
        (&[2, 0x81, 0x80, 0x80, 0x80, 1], Err((2, 1))),
        (&[2, 1, 0xff, 0xff, 0xff, 0xff], Err((2, 2))),
        (&[2, 1, 0, 0xff, 0xff, 0xff, 0xff], Err((2, 3))),
        (&[2, 1, 0, 1, 0x80, 0xa4, 0xe8, 0x83, 0], Err((2, 4))),
        // the last group of two, three and four is zero
        (&[2, 1, 0, 1, 0x80, 0], Err((3, 4))),
        (&[2, 1, 0, 1, 0xff, 0xff, 0], Err((3, 4))),
        (&[2, 1, 0, 1, 0xff, 0xff, 0xff, 0], Err((3, 4))),
        (&[0x82, 0x80, 0x80, 0], Err((3, 0))),
        // n, m, a and b of four groups
        (&[0x80, 0x80, 0x80, 1], Err((4, 0))),
        (&[0x82, 0x80, 0x80, 8, 0], Err((4, 0))),
        (&[2, 0x81, 0x80, 0x80, 1], Err((5, 1))),
        (&[2, 1, 0x80, 0x80, 0x80, 8, 1, 5], Err((6, 2))),
        (&[2, 1, 0, 0x81, 0x80, 0x80, 8, 5], Err((6, 3))),
        // the highest and the lowest of two, three and four groups
        (&[2, 1, 0, 1, 0xff, 0x7f], Ok(16_383)),
        (&[2, 1, 0, 1, 0x80, 0x80, 1], Ok(16_384)),
        (&[2, 1, 0, 1, 0xc1, 0x84, 0x3d], Ok(1_000_001)),
        (&[2, 1, 0, 1, 0xff, 0xff, 0x7f], Ok(2_097_151)),
        (&[2, 1, 0, 1, 0x80, 0x80, 0x80, 1], Ok(2_097_152)),
        (&[2, 1, 0, 1, 0xff, 0xff, 0xff, 2], Ok(6_291_455)),
        (&[2, 1, 0, 1, 0xff, 0xa3, 0xe8, 3], Ok(7_999_999)),
        (&[2, 1, 0, 1, 0x80, 0xa4, 0xe8, 3], Ok(8_000_000)),
        (&[2, 1, 0, 1, 0x81, 0xa4, 0xe8, 3], Err((8, 4))),
        (&[2, 1, 0, 1, 0x80, 0x80, 0x80, 4], Err((8, 4))),
        (&[2, 1, 0, 1, 0x85, 0x80, 0x80, 8], Err((8, 4))),
        (&[2, 1, 0, 1, 0xff, 0xff, 0xff, 0x7f], Err((8, 4))),
    ];
    for (file, want) in cases {
        let read = model::read(file);
        let got = read.clone().map(|net| net.links[0].2).map_err(|Fault { number, place }| (number, place));
        assert_eq!(got, want, "{file:02x?}");
        assert!(read.is_err() || read.unwrap().file() == file, "{file:02x?}");
    }
}

/// Worked out by hand: the longest file has 1,539 bytes, and the highest weight is 256 times the highest capacity; the
/// highest headroom and the lowest, with their texts.
#[test]
fn highest_and_lowest() {
    let capacity = [0x80, 0xa4, 0xe8, 3];
    let file = [vec![2, 0x80, 2], [&[0, 1][..], &capacity].concat().repeat(256)].concat();
    assert_eq!(file.len(), 1 + 2 + 256 * 6);
    assert_eq!(file.len(), 1539);
    let mut plan = Plan::open(&file).unwrap();
    assert_eq!(plan.net.file(), file);
    assert_eq!(plan.pair(0, 1), Ok((2_048_000_000, 1, 0b01, 1)));
    assert_eq!(plan.net.least_by_trial(0, 1), plan.net.least_by_preflow(0, 1));
    assert_eq!((plan.tree.steps[1], plan.tree.lightest()), ((0, 0b10, 2_048_000_000), (1, 2_048_000_000)));
    assert_eq!((plan.headroom(0, 1, 0), plan.headroom(0, 1, 1_000_000_000)), (Ok(2_048_000_000), Ok(1_048_000_000)));
    assert_eq!(model::text(2_048_000_000), " 204800000.0");
    assert_eq!((plan.change(0, 8_000_001), plan.change(0, 8_000_000)), (Err(11), Ok(0)));
    assert_eq!((plan.change(0, 7_999_999), plan.pair(1, 0)), (Ok(0), Ok((2_047_999_999, 1, 0b10, 1))));
    let apart = Plan::open(&Network { nodes: 2, links: vec![] }.file()).unwrap();
    assert_eq!(apart.headroom(0, 1, 1_000_000_000), Ok(-1_000_000_000));
    assert_eq!(model::text(-1_000_000_000), "-100000000.0");
}

/// Worked out by hand: the weights of the tree, and its lightest edge.
#[test]
fn lightest_edges() {
    let cases: [(&[u8], &[u64], (usize, u64)); 8] = [
        // one node; two without a link; two with one
        (&[1, 0], &[], (0, 0)),
        (&[2, 0], &[0], (1, 0)),
        (&[2, 1, 0, 1, 6], &[6], (1, 6)),
        // unconnected: 0 and 1 by 5, 2 and 3 by 7
        (&[4, 2, 0, 1, 5, 2, 3, 7], &[5, 0, 7], (2, 0)),
        // unconnected: 0 and 1 by 5 and 2, node 2 by a link of 0, 3 and 4 by 7
        (&[5, 4, 0, 1, 5, 3, 4, 7, 1, 0, 2, 2, 1, 0], &[7, 0, 0, 7], (2, 0)),
        // a row whose last link is the lightest, and one whose first and last are
        (&[4, 3, 0, 1, 5, 1, 2, 4, 2, 3, 3], &[5, 4, 3], (3, 3)),
        (&[4, 3, 0, 1, 3, 1, 2, 4, 2, 3, 3], &[3, 4, 3], (1, 3)),
        // a ring of equal links: every cut has at least two of them
        (&[3, 3, 0, 1, 2, 1, 2, 2, 2, 0, 2], &[4, 4], (1, 4)),
    ];
    for (file, weights, lightest) in cases {
        let tree = Plan::open(file).unwrap().tree;
        assert_eq!((&tree.weight[1..], tree.lightest()), (weights, lightest), "{file:?}");
    }
}

#[test]
fn trial_and_preflow_agree() {
    let mut random = Random::new(7);
    for _ in 0..400 {
        let net = random.network(8, 14);
        for s in 0..net.nodes {
            for t in 0..net.nodes {
                if s != t {
                    assert_eq!(net.least_by_trial(s, t), net.least_by_preflow(s, t), "{net:?} {s} {t}");
                }
            }
        }
        // the tree's pairs are minimum cuts
        let tree = Tree::of(&net);
        for s in 0..net.nodes {
            for t in 0..net.nodes {
                if s != t {
                    let (w, _, side, _) = tree.pair(s, t);
                    assert_eq!(w, net.least_by_trial(s, t).1);
                    assert_eq!(w, net.value(side));
                    assert!(side >> s & 1 == 1 && side >> t & 1 == 0);
                }
            }
        }
    }
}

/// The edges on the way from s to t, where the end that is deeper in the tree goes up until both meet.
fn way(tree: &Tree, mut s: usize, mut t: usize) -> Vec<usize> {
    let depth = |i| std::iter::successors(Some(i), |&i| (i != 0).then(|| tree.parent[i])).count();
    let mut edges = Vec::new();
    while s != t {
        let deeper = if depth(s) > depth(t) { &mut s } else { &mut t };
        edges.push(*deeper);
        *deeper = tree.parent[*deeper];
    }
    edges
}

#[test]
fn pairs_by_a_walk() {
    let mut random = Random::new(9);
    for _ in 0..400 {
        let net = random.network(12, 20);
        let tree = Tree::of(&net);
        for s in 0..net.nodes {
            for t in (0..net.nodes).filter(|&t| t != s) {
                let mut edges = way(&tree, s, t);
                edges.sort();
                assert_eq!(tree.path(s, t).collect::<Vec<_>>(), edges, "{net:?} {s} {t}");
                let (weight, node, side, size) = tree.pair(s, t);
                // the first of the lightest in rising order
                let lightest = edges.iter().map(|&v| tree.weight[v]).min().unwrap();
                let first = edges.iter().copied().find(|&v| tree.weight[v] == lightest);
                assert_eq!((weight, Some(node)), (lightest, first), "{net:?} {s} {t}");
                // a node is on the side of s if the way to it does not go over the edge
                let reached = (0..net.nodes).filter(|&i| !way(&tree, s, i).contains(&node));
                assert_eq!(side, reached.fold(0, |w, i| w | 1u64 << i), "{net:?} {s} {t}");
                assert_eq!(size, side.count_ones());
            }
        }
    }
}

/// The lightest edge's weight is the smallest value of all sides that are neither empty nor all nodes, and the smallest
/// of all pairs' weights, which is some pair's; no other node has a lighter edge, and no lower one an edge as light.
#[test]
fn lightest_by_trial() {
    let mut random = Random::new(12);
    let (mut ties, mut last) = (0, 0);
    for _ in 0..2000 {
        let net = random.network(8, 14);
        let (tree, n) = (Tree::of(&net), net.nodes);
        let (node, weight) = tree.lightest();
        let all = (1u64 << n) - 1;
        let least = (1..all).map(|side| net.value(side)).min();
        let pairs = (0..n).flat_map(|s| (0..n).filter(move |&t| t != s).map(move |t| (s, t)));
        let limits: Vec<u64> = pairs.map(|(s, t)| tree.pair(s, t).0).collect();
        if n == 1 {
            assert_eq!((node, weight, least, limits.len()), (0, 0, None, 0));
            continue;
        }
        assert_eq!(Some(weight), least, "{net:?}");
        assert!(limits.iter().all(|&limit| limit >= weight) && limits.contains(&weight), "{net:?}");
        assert!((1..n).contains(&node) && tree.weight[node] == weight, "{net:?}");
        assert!((1..node).all(|v| tree.weight[v] > weight), "{net:?}");
        assert!((node..n).all(|v| tree.weight[v] >= weight), "{net:?}");
        ties += (node + 1..n).any(|v| tree.weight[v] == weight) as usize;
        last += (n > 2 && node == n - 1) as usize;
    }
    assert!(ties > 500 && last > 50, "ties {ties}, last {last}");
}

/// Worked out by hand from P3 to P5: on resort A as it is opened, and on P4's plan undone.
#[test]
fn previews_of_resort_a() {
    let first = Plan::open(&RESORT_A).unwrap();
    let mut undone = first.clone();
    assert_eq!((undone.change(3, 4), undone.undo()), (Ok(2), Ok(3)));
    for plan in [first, undone] {
        // link 1 to 1: parents 0, 0, 2 and weights 6, 4, 6
        assert_eq!(plan.preview(1, 1, 0, 1), Ok(((6, 1, 0b1101, 3), 1)));
        assert_eq!(plan.preview(1, 1, 3, 1), Ok(((4, 2, 0b1100, 2), 1)));
        assert_eq!(plan.preview(1, 1, 2, 3), Ok(((6, 3, 0b0111, 3), 1)));
        // link 3 to 4: all parents 0, all weights 8
        assert_eq!(plan.preview(3, 4, 1, 3), Ok(((8, 1, 0b0010, 1), 2)));
        assert_eq!(plan.preview(3, 4, 3, 2), Ok(((8, 2, 0b1011, 3), 2)));
        assert_eq!(plan.preview(3, 4, 0, 3), Ok(((8, 3, 0b0111, 3), 2)));
        // the capacity that it has
        assert_eq!(plan.preview(3, 2, 3, 1), Ok(((6, 2, 0b1100, 2), 0)));
    }
    // link 3 from 4 to 2, as P5 undoes it
    let mut raised = Plan::open(&RESORT_A).unwrap();
    raised.change(3, 4).unwrap();
    assert_eq!(raised.preview(3, 2, 3, 1), Ok(((6, 2, 0b1100, 2), 3)));
}

/// The first condition that holds, of the change's in the table's order and then of the pair's, gives its number;
/// every mix of them is tried.
#[test]
fn refusals_of_previews() {
    let empty = Plan::open(&RESORT_A).unwrap();
    let mut full = empty.clone();
    (0..64).for_each(|c| assert!(full.change(1, c).is_ok()));
    for plan in [empty, full] {
        for (k, c) in [(4, 8_000_000), (5, 8_000_000), (4, 8_000_001), (5, 8_000_001)] {
            for (s, t) in [(3, 0), (3, 3), (4, 0), (0, 4), (4, 4)] {
                let rows =
                    [(10, k > 4), (11, c > 8_000_000), (12, plan.stack.len() > 63), (14, s.max(t) > 3), (15, s == t)];
                let first = rows.into_iter().find(|row| row.1).map(|row| row.0);
                assert_eq!(plan.preview(k, c, s, t).err(), first, "link {k} to {c}, pair {s} {t}");
            }
        }
    }
}

/// Worked out by hand from the request's sentence: one digit of tenths from -9.9 to 99.9, `LOW ` below, `HIGH` above.
#[test]
fn looks_of_windows() {
    let cases = [
        (-999_999_999, "LOW "),
        (-101, "LOW "),
        (-100, "LOW "),
        (-99, "-9.9"),
        (-90, "-9.0"),
        (-11, "-1.1"),
        (-10, "-1.0"),
        (-9, "-0.9"),
        (-5, "-0.5"),
        (-1, "-0.1"),
        (0, " 0.0"),
        (1, " 0.1"),
        (9, " 0.9"),
        (10, " 1.0"),
        (99, " 9.9"),
        (100, "10.0"),
        (101, "10.1"),
        (990, "99.0"),
        (999, "99.9"),
        (1000, "HIGH"),
        (2_048_000_000, "HIGH"),
    ];
    for (tenths, text) in cases {
        assert_eq!(shown(tenths), text, "{tenths} tenths");
    }
    assert!((-200..1200).all(|tenths| shown(tenths).len() == 4));
}

/// Worked out by hand: the calls of a list, each with its reply and the three numbers behind it.
#[test]
fn windows_by_hand() {
    let mut list = List::of(vec![Told::Reset]);
    assert_eq!(list.numbers(), (0, 0, 0));
    let calls = [
        // refused before any is accepted
        (Told::Reading(Err(14)), 14, "    ", (0, 0, 0)),
        // the first is the lowest, also above 0
        (Told::Reading(Ok(7)), 0, " 0.7", (7, 7, 1)),
        (Told::Reading(Ok(12)), 0, " 1.2", (12, 7, 2)),
        (Told::Reading(Err(17)), 17, "    ", (12, 7, 2)),
        (Told::Reading(Ok(-5)), 0, "-0.5", (-5, -5, 3)),
        (Told::Reading(Ok(0)), 0, " 0.0", (0, -5, 4)),
        (Told::Reset, 0, "", (0, 0, 0)),
        (Told::Reset, 0, "", (0, 0, 0)),
        (Told::Reading(Ok(1000)), 0, "HIGH", (1000, 1000, 1)),
        (Told::Reading(Ok(-100)), 0, "LOW ", (-100, -100, 2)),
        (Told::Reading(Ok(-100)), 0, "LOW ", (-100, -100, 3)),
        (Told::Reading(Ok(3)), 0, " 0.3", (3, -100, 4)),
    ];
    for (told, number, text, numbers) in calls {
        match told {
            Told::Reset => list.reset(),
            Told::Reading(headroom) => assert_eq!(list.reading(headroom), (number, text.to_string())),
        }
        assert_eq!(list.numbers(), numbers, "{list:?}");
    }
}

/// Worked out by hand: a record that no reset made, a headroom or its refusal, the record behind it, number and text.
#[test]
fn readings_of_any_record() {
    let (low, high) = (i32::MIN as i64, i32::MAX as i64);
    let cases = [
        // none counted: the lowest takes no part
        ((5, -7, 0), Ok(3), (3, 3, 1), 0, " 0.3"),
        ((high, low, 0), Ok(-5), (-5, -5, 1), 0, "-0.5"),
        ((low, high, 0), Ok(1000), (1000, 1000, 1), 0, "HIGH"),
        // one counted: it does
        ((5, -7, 1), Ok(3), (3, -7, 2), 0, " 0.3"),
        ((5, -7, 1), Ok(-8), (-8, -8, 2), 0, "-0.8"),
        ((high, high, 1), Ok(4), (4, 4, 2), 0, " 0.4"),
        ((high, low, 1), Ok(4), (4, low, 2), 0, " 0.4"),
        // the limit
        ((1, 1, 999_998), Ok(2), (2, 1, 999_999), 0, " 0.2"),
        ((1, 1, 999_999), Ok(0), (0, 0, 1_000_000), 0, " 0.0"),
        ((1, 1, 1_000_000), Ok(0), (1, 1, 1_000_000), 20, "    "),
        ((1, 1, 1_000_001), Ok(0), (1, 1, 1_000_001), 20, "    "),
        ((1, 1, 4_294_967_295), Ok(0), (1, 1, 4_294_967_295), 20, "    "),
        // a headroom's refusals come first
        ((1, 1, 1_000_000), Err(17), (1, 1, 1_000_000), 17, "    "),
        ((1, 1, 1_000_000), Err(14), (1, 1, 1_000_000), 14, "    "),
        ((1, 1, 3), Err(15), (1, 1, 3), 15, "    "),
    ];
    for (before, headroom, after, number, text) in cases {
        assert_eq!(window::reading(before, headroom), (after, (number, text.to_string())), "{before:?} {headroom:?}");
    }
}

/// A list's numbers are those of its readings made one by one, from its last reset on.
#[test]
fn lists_by_single_readings() {
    let mut random = Random::new(17);
    for _ in 0..2000 {
        let mut list = List::of(vec![Told::Reset]);
        let mut numbers = (0, 0, 0);
        for _ in 0..random.below(30) {
            if random.chance(10) {
                list.reset();
                numbers = (0, 0, 0);
                continue;
            }
            let headroom = if random.chance(20) { Err(14) } else { Ok(random.below(2400) as i64 - 1200) };
            let (behind, reply) = window::reading(numbers, headroom);
            assert_eq!((list.reading(headroom), list.numbers()), (reply, behind), "{list:?}");
            numbers = behind;
        }
    }
}

/// The stored listings of `tests/pairs` are the model's, of the 1,540 bytes that the program `pairs` reads at most.
#[test]
fn stored_listings() {
    let folder = Path::new(env!("CARGO_MANIFEST_DIR")).join("../tests/pairs");
    let mut listings = 0;
    for entry in fs::read_dir(folder).unwrap() {
        let path = entry.unwrap().path();
        if path.extension().is_some_and(|kind| kind == "in") {
            let file = fs::read(&path).unwrap();
            let stored = fs::read_to_string(path.with_extension("out")).unwrap();
            assert_eq!(stored, model::listing(&file[..file.len().min(1540)]), "{}", path.display());
            listings += 1;
        }
    }
    assert!(listings > 20);
}
