//! Files, listed and opened.
use crate::cases;
use crate::model::{self, CAPACITY, Fault, Network, Plan};
use crate::random::Random;
use crate::same::{pair_reply, same_plan};
use pamzolit::{Link, Node};

/// How many files were refused, by number, 0 for those that are not; and what they meet of the longest numbers.
#[derive(Debug, Default)]
struct Seen {
    files: usize,
    given: [usize; 10],
    /// accepted, with capacities of two, three and four groups
    groups: [usize; 3],
    /// ends early, too long, a zero last: behind three bytes of the number
    behind_three: [usize; 3],
}

impl Seen {
    fn count(&mut self, file: &[u8]) {
        self.files += 1;
        match model::read(file) {
            Ok(net) => {
                self.given[0] += 1;
                let groups = [1 << 7..1 << 14, 1 << 14..1 << 21, 1 << 21..CAPACITY + 1];
                for (seen, capacities) in self.groups.iter_mut().zip(groups) {
                    *seen += net.links.iter().any(|link| capacities.contains(&link.2)) as usize;
                }
            }
            Err(Fault { number, place }) => {
                self.given[number as usize] += 1;
                let long = file[place..].len() > 2 && file[place..place + 3].iter().all(|byte| *byte > 127);
                if (1..4).contains(&number) {
                    self.behind_three[number as usize - 1] += long as usize;
                }
            }
        }
    }

    /// What was not met was not compared.
    fn must_have(&self, least: usize) {
        println!("{self:?}, 0 disagreements");
        let all = self.given.iter().chain(&self.groups).chain(&self.behind_three);
        assert!(all.copied().all(|times| times > least), "{self:?}");
    }
}

/// The listing and the opening of a file are the model's.
fn same_file(file: &[u8]) {
    assert_eq!(pamzolit::listing(file), model::listing(file), "file {file:02x?}");
    match (pamzolit::Plan::open(file), Plan::open(file)) {
        (Ok(held), Ok(want)) => assert!(same_plan(&held, &want) && held.write() == file, "file {file:02x?}"),
        (Err(got), Err(want)) => {
            assert_eq!((got.number(), got.place()), (want.number, want.place), "file {file:02x?}")
        }
        (got, want) => panic!("file {file:02x?}: {got:?}, not {want:?}"),
    }
}

#[test]
fn files() {
    let total = cases("PAMZOLIT_FILES", 200_000);
    let mut random = Random::new(1);
    let mut seen = Seen::default();
    for i in 0..total {
        let file = match i % 4 {
            0 => random.bytes(),
            1 => {
                let net = random.network(70, 40);
                random.damaged(net.file())
            }
            _ => {
                let net = random.network(6, 9);
                random.damaged(net.file())
            }
        };
        seen.count(&file);
        same_file(&file);
    }
    seen.must_have(total / 1000);
}

#[test]
fn large_files() {
    let mut random = Random::new(2);
    for i in 0..cases("PAMZOLIT_FILES", 200_000) / 2000 {
        let mut net = random.network(64, 256);
        if i % 4 == 0 {
            net = loop {
                let net = random.network(64, 256);
                if net.nodes == 64 || net.links.len() == 256 {
                    break net;
                }
            };
        }
        same_file(&net.file());
        assert!(pamzolit::Plan::open(&net.file()).is_ok());
    }
}

/// Networks whose capacities are all near the highest: many links between few nodes, so that weights come near theirs.
#[test]
fn highest_weights() {
    let mut random = Random::new(18);
    let mut highest = 0;
    for i in 0..cases("PAMZOLIT_FILES", 200_000) / 500 {
        let mut net = random.network(if i % 2 == 0 { 2 } else { 5 }, 256);
        net.links.iter_mut().for_each(|link| link.2 = CAPACITY - random.below(3) as u32);
        same_file(&net.file());
        let (mut held, mut want) = (pamzolit::Plan::open(&net.file()).unwrap(), Plan::open(&net.file()).unwrap());
        if !net.links.is_empty() {
            let (k, capacity) = (random.below(net.links.len()), random.capacity());
            assert_eq!(held.change(Link(k), capacity).ok(), want.change(k, capacity).ok());
            assert!(same_plan(&held, &want), "{net:?}, link {k} to {capacity}");
        }
        for (s, t) in (0..net.nodes).flat_map(|s| (0..s).map(move |t| (s, t))) {
            highest = highest.max(want.tree.pair(s, t).0);
            assert_eq!(pair_reply(held.pair(Node(s), Node(t))), want.pair(s, t), "{net:?}");
            assert!(want.flow_is_right(s, t, &held.flow(Node(s), Node(t)).unwrap()), "{net:?}");
            for demand in [0, 1, 999_999_999, 1_000_000_000] {
                let (got, right) = (held.headroom(Node(s), Node(t), demand).unwrap(), want.headroom(s, t, demand));
                assert_eq!(Ok(got.tenths() as i64), right, "{net:?}");
                assert_eq!(right.map(model::text), Ok(got.text().to_string()), "{net:?}");
            }
        }
    }
    println!("highest weight {highest}, 0 disagreements");
    assert!(highest > 2_000_000_000);
}

/// All 256 links between the same two nodes, and what one less or one more than the highest capacity makes of it.
#[test]
fn highest_weight() {
    let links = |last| [vec![(0, 1, CAPACITY); 255], vec![(1, 0, last)]].concat();
    for (last, fault) in [(CAPACITY - 1, None), (CAPACITY, None), (CAPACITY + 1, Some(8))] {
        let file = Network { nodes: 2, links: links(last) }.file();
        same_file(&file);
        let error = pamzolit::Plan::open(&file).err();
        assert_eq!(error.map(|e| (e.number(), e.place())), fault.map(|number| (number, 1535)));
    }
    let file = Network { nodes: 2, links: links(CAPACITY) }.file();
    let plan = pamzolit::Plan::open(&file).unwrap();
    assert_eq!((plan.pair(Node(0), Node(1)).unwrap().weight, file.len()), (2_048_000_000, 1539));
}

#[test]
fn every_short_file() {
    same_file(&[]);
    for first in 0..=255 {
        same_file(&[first]);
        for second in 0..=255 {
            same_file(&[first, second]);
        }
    }
}

#[test]
fn headrooms_of_files() {
    let mut random = Random::new(6);
    for _ in 0..20_000 {
        let net = random.network(6, 9);
        let file = random.damaged(net.file());
        let (s, t, demand) = (random.below(8), random.below(8), random.capacity());
        let (Ok(held), Ok(want)) = (pamzolit::Plan::open(&file), Plan::open(&file)) else {
            same_file(&file);
            continue;
        };
        match (held.headroom(Node(s), Node(t), demand), want.headroom(s, t, demand)) {
            (Ok(got), Ok(z)) => assert!(got.tenths() as i64 == z && got.text() == model::text(z), "{file:02x?}"),
            (got, want) => assert_eq!(got.err().map(|e| e.number()), want.err(), "{file:02x?}"),
        }
    }
}
