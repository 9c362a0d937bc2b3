//! Nothing panics on bad input: every call and every look at a plan, with numbers, buffers and files that are out
//! of range in every way that a type allows. What is refused is refused by its number, and nothing is altered.
#[path = "model/mod.rs"]
mod model;
#[path = "random/mod.rs"]
mod random;
use pamzolit::{FileError, Link, Node, Plan, Refusal, Shown, Side, Window};
use random::Random;
use std::hint::black_box;

const NUMBERS: [usize; 14] = [0, 1, 2, 3, 4, 5, 63, 64, 255, 256, 65_536, 1 << 32, isize::MAX as usize, usize::MAX];
const WORDS: [u32; 11] =
    [0, 1, 999_999, 1_000_000, 1_000_001, 8_000_000, 8_000_001, 1_000_000_000, 1_000_000_001, u32::MAX - 1, u32::MAX];

fn plans() -> Vec<Plan> {
    let longest = [vec![64, 0x80, 2], [0, 63, 0x80, 0xa4, 0xe8, 3].repeat(256)].concat();
    let files: [&[u8]; 5] =
        [&[1, 0], &[2, 0], &[2, 1, 0, 1, 5], &[4, 5, 0, 1, 5, 1, 2, 3, 2, 3, 4, 0, 3, 2, 0, 2, 1], &longest];
    files.iter().map(|file| Plan::open(file).unwrap()).collect()
}

fn full_plan() -> Plan {
    let mut plan = Plan::open(&[4, 5, 0, 1, 5, 1, 2, 3, 2, 3, 4, 0, 3, 2, 0, 2, 1]).unwrap();
    (0..64).for_each(|capacity| assert!(plan.change(Link(1), capacity).is_ok()));
    plan
}

fn refusal_of_change(plan: &Plan, link: usize, capacity: u32) -> Option<u32> {
    let rows = [(10, link >= plan.link_count()), (11, capacity > 8_000_000), (12, plan.changes().len() == 64)];
    rows.into_iter().find(|row| row.1).map(|row| row.0)
}

fn refusal_of_pair(plan: &Plan, s: usize, t: usize) -> Option<u32> {
    let n = plan.node_count();
    if s >= n || t >= n { Some(14) } else { (s == t).then_some(15) }
}

// the number of a refusal, which has a name
fn refusal<T>(result: Result<T, Refusal>) -> Option<u32> {
    let refusal = result.err();
    assert!(!matches!(refusal, Some(Refusal::Unknown(_))));
    refusal.map(|e| e.number())
}

#[test]
fn numbers_out_of_range() {
    for plan in plans() {
        for s in NUMBERS {
            for t in NUMBERS {
                let of_pair = refusal_of_pair(&plan, s, t);
                assert_eq!(refusal(plan.pair(Node(s), Node(t))), of_pair);
                assert_eq!(refusal(plan.flow(Node(s), Node(t))), of_pair);
                for demand in WORDS {
                    let right = of_pair.or((demand > 1_000_000_000).then_some(17));
                    assert_eq!(refusal(plan.headroom(Node(s), Node(t), demand)), right);
                }
            }
        }
    }
}

#[test]
fn links_and_capacities_out_of_range() {
    for plan in plans() {
        for k in NUMBERS {
            assert_eq!(plan.link(Link(k)).is_some(), k < plan.link_count());
            for capacity in WORDS {
                let mut changed = plan.clone();
                let right = refusal_of_change(&plan, k, capacity);
                assert_eq!(refusal(changed.change(Link(k), capacity)), right);
                assert!(right.is_none() || changed == plan);
                assert_eq!(refusal(changed.undo()), right.and(Some(13)));
                assert!(changed == plan);
            }
        }
    }
}

#[test]
fn previews_out_of_range() {
    for plan in plans().into_iter().chain([full_plan()]) {
        let first = black_box(plan.clone());
        for k in NUMBERS {
            for capacity in WORDS {
                let of_change = refusal_of_change(&plan, k, capacity);
                for s in NUMBERS {
                    for t in NUMBERS {
                        let right = of_change.or(refusal_of_pair(&plan, s, t));
                        assert_eq!(refusal(plan.preview(Link(k), capacity, Node(s), Node(t))), right);
                    }
                }
                assert!(*black_box(&plan) == first);
            }
        }
    }
}

#[test]
fn readings_out_of_range() {
    for plan in plans().into_iter().chain([full_plan()]) {
        let first = black_box(plan.clone());
        for (s, t) in NUMBERS.into_iter().flat_map(|s| NUMBERS.map(|t| (s, t))) {
            let of_pair = refusal_of_pair(&plan, s, t);
            for (demand, count) in WORDS.into_iter().flat_map(|demand| WORDS.map(|count| (demand, count))) {
                let before = Window::resume(i32::MIN, i32::MAX, count);
                let mut window = before.clone();
                let rows = [(17, demand > 1_000_000_000), (20, count >= 1_000_000)];
                let right = of_pair.or(rows.into_iter().find(|row| row.1).map(|row| row.0));
                assert_eq!(refusal(window.reading(&plan, Node(s), Node(t), demand)), right);
                assert_eq!(window == before, right.is_some());
            }
        }
        assert!(*black_box(&plan) == first);
    }
}

#[test]
fn buffers_of_every_length() {
    for plan in plans() {
        let file = plan.write();
        for length in (0..=1560).chain([100_000]) {
            let mut bytes = vec![0xee; length];
            let long = length >= file.len();
            assert_eq!(plan.write_into(&mut bytes), if long { Ok(file.len()) } else { Err(Refusal::BufferTooShort) });
            let used = if long { file.len() } else { 0 };
            assert!(bytes[..used] == file[..used] && bytes[used..].iter().all(|&b| b == 0xee));

            let mut numbers = vec![-7; length];
            let right = refusal_of_pair(&plan, 0, 1).or((length != plan.link_count()).then_some(16));
            assert_eq!(refusal(plan.flow_into(Node(0), Node(1), &mut numbers)), right);
            assert!(right.is_none() || numbers.iter().all(|&x| x == -7));
        }
    }
}

#[test]
fn files_of_noise() {
    let mut random = Random::new(8);
    for _ in 0..20_000 {
        let length = random.below(1700);
        let file: Vec<u8> = (0..length).map(|_| random.next() as u8).collect();
        let error = Plan::open(&file).err();
        assert!(!matches!(error, Some(FileError::Unknown { .. })));
        let refused = error.map(|e| format!("refused {} {}\n", e.number(), e.place()));
        assert_eq!(refused, Some(pamzolit::listing(&file)).filter(|lines| lines.starts_with("refused")));
    }
    let long = vec![0x7f; 10_000_000];
    assert_eq!(Plan::open(&long).unwrap_err().number(), 4);
}

#[test]
fn looks_and_words() {
    for plan in plans() {
        assert_eq!(plan.nodes().len(), plan.node_count());
        assert_eq!(plan.tree().len() + 1, plan.node_count());
        assert_eq!(plan.steps().len() + 1, plan.node_count());
        assert_eq!(plan.changes().len(), 0);
        assert_eq!(plan.lightest().is_some(), plan.node_count() > 1);
        assert!(plan.links().nth(usize::MAX).is_none() && !format!("{plan:?}").is_empty());
    }
    for i in NUMBERS {
        assert_eq!(Side::from_bits(u64::MAX).contains(Node(i)), i < 64);
        assert!(!Side::default().contains(Node(i)));
    }
    let plan = Plan::open(&[2, 1, 0, 1, 5]).unwrap();
    for demand in [0, 5, 6, 1_000_000_000] {
        let headroom = plan.headroom(Node(0), Node(1), demand).unwrap();
        let tenths = 5 - demand as i64;
        assert_eq!(headroom.text(), model::text(tenths));
        assert_eq!(format!("{headroom:>12}"), model::text(tenths));
        assert_eq!(format!("{headroom:500}").len(), 500);
        assert_eq!(format!("{headroom:?}"), format!("Headroom({tenths})"));
    }
    let mut window = Window::new();
    let shown = window.reading(&plan, Node(0), Node(1), 10).unwrap();
    assert_eq!((shown.to_string(), format!("{shown:>6}")), ("-0.5".to_string(), "  -0.5".to_string()));
    assert_eq!(format!("{shown:?} {:?}", Shown::default()), r#"Shown("-0.5") Shown("    ")"#);
    assert_eq!(format!("{window:?}"), "Window { last: -5, lowest: -5, count: 1 }");
    let all: Vec<Node> = Side::from_bits(u64::MAX).into_iter().rev().collect();
    assert_eq!((all.len(), all[0], all[63]), (64, Node(63), Node(0)));
}

#[test]
fn a_plan_may_be_shared() {
    let plan = Plan::open(&[2, 1, 0, 1, 5]).unwrap();
    std::thread::scope(|threads| {
        for _ in 0..4 {
            threads.spawn(|| {
                let mut window = Window::new();
                for capacity in 0..1000 {
                    window.reading(&plan, Node(0), Node(1), capacity).unwrap();
                    assert_eq!(plan.preview(Link(0), capacity, Node(0), Node(1)).unwrap().pair.weight, capacity);
                    assert_eq!(plan.pair(Node(0), Node(1)).unwrap().weight, 5);
                }
                assert_eq!(window, Window::resume(5 - 999, 5 - 999, 1000));
            });
        }
    });
}
