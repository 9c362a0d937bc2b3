//! Gate windows: lists of resets and readings on plans that change in between, single readings of any record, a
//! million readings in a row, and the four characters of every headroom.
use crate::calls::index;
use crate::cases;
use crate::model::Plan;
use crate::model::window::{self, List, Numbers, Reply, Told, shown};
use crate::random::Random;
use pamzolit::{Link, Node, Refusal, Shown, Window};
use std::hint::black_box;

/// Headrooms at which the window changes its look, and their neighbours.
const TELLING: [i64; 17] = [-101, -100, -99, -98, -10, -9, -5, -1, 0, 1, 9, 10, 99, 100, 999, 1000, 1001];

const ENDS: [i32; 13] =
    [i32::MIN, i32::MIN + 1, -1_000_000_000, -101, -5, -1, 0, 1, 6, 1000, 2_048_000_000, i32::MAX - 1, i32::MAX];

const COUNTS: [u32; 13] =
    [0, 1, 2, 65_535, 999_997, 999_998, 999_999, 1_000_000, 1_000_001, (1 << 24) + 1, 1 << 31, u32::MAX - 1, u32::MAX];

fn numbers(window: &Window) -> Numbers {
    (window.last().into(), window.lowest().into(), window.count().into())
}

fn reply(got: Result<Shown, Refusal>) -> Reply {
    (got.map_or_else(|e| e.number(), |_| 0), got.unwrap_or_default().to_string())
}

/// A plan and the model's of the same network.
struct Twins {
    held: pamzolit::Plan,
    want: Plan,
}

impl Twins {
    fn open(file: &[u8]) -> Twins {
        Twins { held: pamzolit::Plan::open(file).unwrap(), want: Plan::open(file).unwrap() }
    }

    /// A change of a link of theirs, or an undo.
    fn alter(&mut self, random: &mut Random) {
        let links = self.want.net.links.len();
        if links == 0 || random.chance(30) {
            assert_eq!(self.held.undo().ok(), self.want.undo().ok());
        } else {
            let (k, capacity) = (random.below(links), random.capacity());
            assert_eq!(self.held.change(Link(k), capacity).ok(), self.want.change(k, capacity).ok());
        }
    }
}

#[derive(Clone, Copy, Debug)]
struct Question {
    s: usize,
    t: usize,
    demand: u32,
}

/// A demand that leaves a telling headroom where there is one, or any.
fn random_demand(random: &mut Random, limit: i64) -> u32 {
    match random.below(20) {
        0 => 1_000_000_000 + random.below(2) as u32,
        1 => u32::MAX - random.below(2) as u32,
        2 => random.below(20_000_000) as u32,
        3..=5 => random.below(20) as u32,
        _ => u32::try_from(limit - TELLING[random.below(TELLING.len())]).unwrap_or(0),
    }
}

fn random_question(random: &mut Random, plan: &Plan) -> Question {
    let n = plan.net.nodes;
    let (s, t) = (index(random, n), index(random, n));
    let limit = plan.pair(s, t).map_or(0, |pair| pair.0 as i64);
    Question { s, t, demand: random_demand(random, limit) }
}

fn random_window(random: &mut Random) -> Window {
    let mut end = || if random.chance(70) { ENDS[random.below(ENDS.len())] } else { random.next() as i32 };
    let (last, lowest) = (end(), end());
    Window::resume(last, lowest, COUNTS[random.below(COUNTS.len())])
}

/// A reading by the archive: the reply and the record are those of one reading by the model, and the plan is left.
/// Gives the reply, and the headroom by the model.
fn read(twins: &Twins, window: &mut Window, q: Question) -> (Reply, Result<i64, u32>) {
    let Twins { held, want } = twins;
    let (plan_before, before) = (black_box(held.clone()), numbers(window));
    let got = reply(window.reading(held, Node(q.s), Node(q.t), q.demand));
    let headroom = want.headroom(q.s, q.t, q.demand);
    assert_eq!((numbers(window), got.clone()), window::reading(before, headroom), "{q:?} on {before:?} of {held:?}");
    assert!(*black_box(held) == plan_before, "{q:?} altered {plan_before:?}");
    (got, headroom)
}

/// Which readings were compared, by the model.
#[derive(Debug, Default)]
struct Seen {
    /// by number, 0 for those that are accepted
    given: [usize; 21],
    /// of the accepted ones those with each telling headroom
    telling: [usize; TELLING.len()],
    /// resets of a record that counted some
    resets: usize,
    /// first ones above 0, later ones that lower the lowest, later ones that leave it
    firsts: usize,
    lowering: usize,
    leaving: usize,
    /// refused ones on a record that counted some; ones that are refused by their headroom and by their count
    between: usize,
    both: usize,
}

impl Seen {
    fn accepted(&mut self, (_, lowest, count): Numbers, headroom: i64) {
        if let Some(i) = TELLING.iter().position(|&telling| telling == headroom) {
            self.telling[i] += 1;
        }
        self.firsts += (count == 0 && headroom > 0) as usize;
        self.lowering += (count > 0 && headroom < lowest) as usize;
        self.leaving += (count > 0 && headroom > lowest) as usize;
    }

    fn count(&mut self, before: Numbers, number: u32, headroom: Result<i64, u32>) {
        self.given[number as usize] += 1;
        self.both += (headroom.is_err() && before.2 >= 1_000_000) as usize;
        match headroom {
            Ok(headroom) if number == 0 => self.accepted(before, headroom),
            _ => self.between += (before.2 > 0) as usize,
        }
    }

    /// What was not met was not compared.
    fn must_have(&self, given: &[usize], least: usize) {
        println!("{self:?}, 0 disagreements");
        assert!(given.iter().all(|&number| self.given[number] > least), "{self:?}");
        assert!(self.telling.iter().all(|&times| times > least), "{self:?}");
        let kinds = [self.firsts, self.lowering, self.leaving, self.between];
        assert!(kinds.iter().all(|&times| times > least), "{self:?}");
    }
}

/// A list that begins with a reset of a random record. After each call reply and record are what the whole list says.
fn one_list(random: &mut Random, most_nodes: usize, most_calls: usize, seen: &mut Seen) {
    let mut plans: Vec<Twins> =
        (0..=random.below(3)).map(|_| Twins::open(&random.network(most_nodes, 2 * most_nodes).file())).collect();
    let mut window = random_window(random);
    window.reset();
    let mut list = List::of(vec![Told::Reset]);
    assert_eq!(numbers(&window), list.numbers());
    for _ in 0..random.below(most_calls + 1) {
        let twins = random.below(plans.len());
        match random.below(20) {
            0 => {
                seen.resets += (window.count() > 0) as usize;
                window.reset();
                list.reset();
            }
            1..=3 => plans[twins].alter(random),
            _ => {
                let (twins, before) = (&plans[twins], list.numbers());
                let (got, headroom) = read(twins, &mut window, random_question(random, &twins.want));
                seen.count(before, got.0, headroom);
                assert_eq!(got, list.reading(headroom), "{list:?}");
            }
        }
        assert_eq!(numbers(&window), list.numbers(), "{list:?}");
    }
}

#[test]
fn lists() {
    let total = cases("PAMZOLIT_HISTORIES", 20_000);
    let mut random = Random::new(14);
    let mut seen = Seen::default();
    for _ in 0..total {
        one_list(&mut random, 6, 40, &mut seen);
    }
    seen.must_have(&[0, 14, 15, 17], total / 200);
    assert!(seen.resets > total / 10, "{seen:?}");
}

#[test]
fn lists_on_large_plans() {
    let total = cases("PAMZOLIT_HISTORIES", 20_000) / 400;
    let mut random = Random::new(15);
    let mut seen = Seen::default();
    for _ in 0..total {
        one_list(&mut random, 64, 200, &mut seen);
    }
    seen.must_have(&[0, 14, 15, 17], 0);
}

/// Some readings in a row on a record that no reset made, which may cross the limit.
#[test]
fn any_record() {
    let total = cases("PAMZOLIT_HISTORIES", 20_000);
    let mut random = Random::new(16);
    let mut seen = Seen::default();
    for _ in 0..total {
        let twins = Twins::open(&random.network(4, 6).file());
        let mut window = random_window(&mut random);
        for _ in 0..4 {
            let before = numbers(&window);
            let (got, headroom) = read(&twins, &mut window, random_question(&mut random, &twins.want));
            seen.count(before, got.0, headroom);
        }
    }
    seen.must_have(&[0, 14, 15, 17, 20], total / 400);
    assert!(seen.both > total / 10, "{seen:?}");
}

/// Every mix of the numbers at which something changes, with every telling headroom and every refusal.
#[test]
fn records_at_their_ends() {
    let twins = Twins::open(&[2, 1, 0, 1, 0xe9, 7]); // a link of 1001
    let fine = TELLING.map(|headroom| Question { s: 0, t: 1, demand: (1001 - headroom) as u32 });
    let faulty = [(0, 2, 0), (usize::MAX, 1, u32::MAX), (1, 1, u32::MAX), (1, 0, 1_000_000_001), (1, 0, u32::MAX)];
    let faulty = faulty.map(|(s, t, demand)| Question { s, t, demand });
    let mut seen = Seen::default();
    for (last, lowest) in ENDS.into_iter().flat_map(|last| ENDS.map(|lowest| (last, lowest))) {
        for (count, &q) in COUNTS.into_iter().flat_map(|count| fine.iter().chain(&faulty).map(move |q| (count, q))) {
            let mut window = Window::resume(last, lowest, count);
            let before = numbers(&window);
            assert_eq!(before, (last.into(), lowest.into(), count.into()));
            let (got, headroom) = read(&twins, &mut window, q);
            seen.count(before, got.0, headroom);
            window.reset();
            assert_eq!((numbers(&window), window), ((0, 0, 0), Window::new()));
        }
    }
    seen.must_have(&[0, 14, 15, 17, 20], 100);
}

/// A reset and a million readings in a row, which rise and fall and go lower and lower: what was told.
fn read_a_million(twins: &Twins, window: &mut Window) -> List {
    window.reset();
    let mut told = vec![Told::Reset];
    for i in 0..1_000_000 {
        let demand = i / 1000 + i % 700;
        let headroom = twins.want.headroom(0, 1, demand);
        told.push(Told::Reading(headroom));
        let got = reply(window.reading(&twins.held, Node(0), Node(1), demand));
        assert_eq!((got, headroom), ((0, shown(window.last().into())), Ok(window.last().into())));
        assert_eq!(window.count(), i + 1);
        if i % 20_000 == 1234 {
            assert_eq!(numbers(window), List::of(told.clone()).numbers());
        }
    }
    List::of(told)
}

/// One more is refused, and after a reset one is accepted again.
#[test]
fn a_million_readings() {
    let twins = Twins::open(&[3, 2, 0, 1, 0xe8, 7, 1, 2, 6]); // links of 1000 and of 6
    let mut window = Window::resume(-7, -7, 7);
    let mut list = read_a_million(&twins, &mut window);
    assert_eq!(numbers(&window), (1000 - 999 - 399, 1000 - 999 - 699, 1_000_000));
    assert_eq!(numbers(&window), list.numbers());
    let more = [(1, 2, 0, 20), (0, 1, 5000, 20), (1, 2, 1_000_000_001, 17), (0, 3, 0, 14), (2, 2, 0, 15)];
    for (s, t, demand, number) in more {
        let (got, headroom) = read(&twins, &mut window, Question { s, t, demand });
        assert_eq!((&got, got.0), (&list.reading(headroom), number));
        assert_eq!(numbers(&window), list.numbers());
    }
    window.reset();
    list.reset();
    assert_eq!(numbers(&window), list.numbers());
    let (got, headroom) = read(&twins, &mut window, Question { s: 1, t: 2, demand: 5 });
    assert_eq!((&got, got.1.as_str()), (&list.reading(headroom), " 0.1"));
    assert_eq!((numbers(&window), list.numbers()), ((1, 1, 1), (1, 1, 1)));
}

/// Every headroom around those that can be shown.
#[test]
fn every_look() {
    // 124 links of 8,000,000 between two nodes: nearly as much as the highest demand
    let parallel = [vec![2, 124], [0, 1, 0x80, 0xa4, 0xe8, 3].repeat(124)].concat();
    let limit = 992_000_000;
    let plan = pamzolit::Plan::open(&parallel).unwrap();
    let mut window = Window::new();
    let mut look = |demand| reply(window.reading(&plan, Node(0), Node(1), demand)).1;
    for headroom in -1200..1200 {
        assert_eq!(look((limit - headroom) as u32), shown(headroom), "{headroom} tenths");
    }
    assert_eq!([look(0), look(1_000_000_000)], ["HIGH", "LOW "]);
    let by_hand = ["LOW ", "-9.9", "-1.0", "-0.5", "-0.1", " 0.0", " 0.1", " 9.9", "10.0", "99.9", "HIGH"];
    assert_eq!([-100, -99, -10, -5, -1, 0, 1, 99, 100, 999, 1000].map(|z| look((limit - z) as u32)), by_hand);
}

/// By hand: the highest headroom of all, of 256 links of 8,000,000 between two nodes and no demand, and the lowest, of
/// two nodes apart and the highest demand; each on records that hold the other.
#[test]
fn headrooms_at_their_ends() {
    let longest = [vec![2, 0x80, 2], [0, 1, 0x80, 0xa4, 0xe8, 3].repeat(256)].concat();
    let plans = [&longest[..], &[2, 0]].map(|file| pamzolit::Plan::open(file).unwrap());
    let (high, low) = (2_048_000_000, -1_000_000_000);
    let mut window = Window::new();
    let mut read = |plan: usize, demand| {
        let got = reply(window.reading(&plans[plan], Node(0), Node(1), demand));
        (got.0, got.1, window.last(), window.lowest(), window.count())
    };
    assert_eq!(read(0, 0), (0, "HIGH".to_string(), high, high, 1));
    assert_eq!(read(1, 1_000_000_000), (0, "LOW ".to_string(), low, low, 2));
    assert_eq!(read(0, 0), (0, "HIGH".to_string(), high, low, 3));
    assert_eq!(read(0, 1_000_000_000), (0, "HIGH".to_string(), 1_048_000_000, low, 4));
    assert_eq!(read(1, 1_000_000_001), (17, "    ".to_string(), 1_048_000_000, low, 4));
    let text = |plan: usize, demand| {
        let headroom = plans[plan].headroom(Node(1), Node(0), demand).unwrap();
        (headroom.tenths(), headroom.text().to_string())
    };
    assert_eq!(text(0, 0), (high, " 204800000.0".to_string()));
    assert_eq!(text(1, 1_000_000_000), (low, "-100000000.0".to_string()));
    let weights = [0, 1].map(|plan| plans[plan].pair(Node(0), Node(1)).unwrap().weight);
    assert_eq!((weights, plans[0].lightest().unwrap().weight), ([2_048_000_000, 0], 2_048_000_000));
}

/// By hand: what resort A's gate between nodes 1 and 3 shows, with link 2 or without it, and its numbers.
#[test]
fn window_of_resort_a() {
    let mut plan = pamzolit::Plan::open(&[4, 5, 0, 1, 5, 1, 2, 3, 2, 3, 4, 0, 3, 2, 0, 2, 1]).unwrap();
    let mut window = Window::default();
    let mut read = |plan: &pamzolit::Plan, demand| {
        let got = reply(window.reading(plan, Node(1), Node(3), demand));
        (got.0, got.1, window.last(), window.lowest(), window.count())
    };
    assert_eq!(read(&plan, 2), (0, " 0.4".to_string(), 4, 4, 1));
    assert_eq!(read(&plan, 1), (0, " 0.5".to_string(), 5, 4, 2));
    plan.change(Link(2), 0).unwrap();
    assert_eq!(read(&plan, 7), (0, "-0.5".to_string(), -5, -5, 3));
    assert_eq!(read(&plan, 1_000_000_001), (17, "    ".to_string(), -5, -5, 3));
    plan.undo().unwrap();
    assert_eq!(read(&plan, 6), (0, " 0.0".to_string(), 0, -5, 4));
    assert_eq!(read(&plan, 106), (0, "LOW ".to_string(), -100, -100, 5));
}
