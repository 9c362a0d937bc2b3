//! The lines of tests/c/life.out and of examples/evening.out by the independent model: what resort A's life in C's
//! memory must print, and a gate's evening. With `-- --nocapture` they are printed.
#[path = "model/mod.rs"]
mod model;
use model::window::{self, List, Numbers, Reply, Told};
use model::{Network, Plan};
use std::fmt::Write;

const RESORT_A: [u8; 17] = [4, 5, 0, 1, 5, 1, 2, 3, 2, 3, 4, 0, 3, 2, 0, 2, 1];

/// Links that are none, and capacities that none may have.
const NO_CHANGES: [(usize, u32); 4] = [(5, 1), (usize::MAX, 8_000_001), (4, 8_000_001), (0, u32::MAX)];

/// Ends that are no two nodes.
const NO_PAIRS: [(usize, usize); 7] = [(0, 4), (4, 0), (4, 4), (usize::MAX, 1), (1, usize::MAX), (2, 2), (0, 0)];

/// Files that are refused, and their neighbours that are not.
const FILES: [&[u8]; 45] = [
    b"",
    b"\x80",
    b"\x80\x80",
    b"\x80\x80\x80",
    b"\x04",
    b"\x04\x05\x00\x01",
    b"\x02\x80\x02",
    b"\x02\x80\x80\x80",
    b"\x02\x01\x00\x01\xff\xff\xff",
    b"\x80\x80\x80\x80",
    b"\x80\x80\x80\x80\x00",
    b"\x02\x80\x80\x80\x80",
    b"\x02\x01\x00\x01\xff\xff\xff\xff",
    b"\x80\x00",
    b"\x80\x80\x00",
    b"\x80\x80\x80\x00",
    b"\x02\x01\x00\x01\xff\xff\xff\x00",
    b"\x02\x01\x00\x01\x80\x00",
    b"\x02\x01\x80\x00",
    b"\x00",
    b"\x41",
    b"\x80\x01",
    b"\x80\x80\x80\x01",
    b"\x40\x00",
    b"\x02\x81\x02",
    b"\x02\x81\x80\x80\x01",
    b"\x01\x00",
    b"\x02\x01\x02",
    b"\x02\x01\x00\x02",
    b"\x04\x01\x80\x01",
    b"\x02\x01\x00\x00\x00",
    b"\x02\x01\x02\x02",
    b"\x02\x01\x01\x01\xff",
    b"\x02\x01\x00\x01\xc0\x84\x3d",
    b"\x02\x01\x00\x01\xc1\x84\x3d",
    b"\x02\x01\x01\x00\xff\xff\x7f",
    b"\x02\x01\x00\x01\x80\x80\x80\x01",
    b"\x02\x01\x00\x01\x80\xa4\xe8\x02",
    b"\x02\x01\x00\x01\x80\xa4\xe8\x03",
    b"\x02\x01\x00\x01\x81\xa4\xe8\x03",
    b"\x02\x01\x01\x00\xff\xff\xff\x7f",
    b"\x02\x01\x01\x00\x00",
    b"\x01\x00\x00",
    b"\x02\x00\x80\x80",
    b"\x02\x01\x00\x01\x05\x00",
];

fn resort_a() -> Plan {
    Plan::open(&RESORT_A).unwrap()
}

fn hexadecimal(bytes: &[u8]) -> String {
    bytes.iter().map(|b| format!(" {b:02x}")).collect()
}

struct Lines(String);

impl Lines {
    fn say(&mut self, line: impl AsRef<str>) {
        writeln!(self.0, "{}", line.as_ref()).unwrap();
    }

    fn tree(&mut self, plan: &Plan) {
        for i in 1..plan.net.nodes {
            self.say(format!("tree {i} {} {}", plan.tree.parent[i], plan.tree.weight[i]));
        }
    }

    fn plan(&mut self, plan: &Plan) {
        self.say(format!("network: {} nodes, {} links", plan.net.nodes, plan.net.links.len()));
        for (k, (a, b, c)) in plan.net.links.iter().enumerate() {
            self.say(format!("link {k}: {a} {b}, capacity {c}"));
        }
        self.tree(plan);
        for (s, (pivot, side, value)) in plan.tree.steps.iter().enumerate().skip(1) {
            self.say(format!("step {s}: pivot {pivot}, side {side}, value {value}"));
        }
        self.say(format!("stack: depth {}", plan.stack.len()));
        for (i, (link, capacity)) in plan.stack.iter().enumerate() {
            self.say(format!("before change {i}: link {link}, capacity {capacity}"));
        }
        let (node, weight) = plan.tree.lightest();
        self.say(format!("lightest: node {node}, weight {weight}"));
    }

    fn pairs(&mut self, plan: &Plan) {
        for s in 0..plan.net.nodes {
            for t in (0..plan.net.nodes).filter(|&t| t != s) {
                let (weight, node, side, size) = plan.tree.pair(s, t);
                let flow = plan.net.least_by_trial(s, t).1;
                self.say(format!("pair {s} {t}: weight {weight}, node {node}, side {side} of {size}; flow {flow}"));
            }
        }
    }

    fn preview(&mut self, plan: &Plan, (k, c): (usize, u32), (s, t): (usize, usize)) {
        let ((weight, node, side, size), count) = plan.preview(k, c, s, t).unwrap();
        let pair = format!("weight {weight}, node {node}, side {side} of {size}");
        self.say(format!("preview link {k} to {c}, pair {s} {t}: {pair}; {count} not kept"));
    }

    fn refused<T>(&mut self, call: String, reply: Result<T, u32>) {
        self.say(format!("{call}: refused {}", reply.err().unwrap()));
    }

    fn refused_changes(&mut self, plan: &Plan) {
        for (k, c) in NO_CHANGES {
            self.refused(format!("change link {k} to {c}"), plan.clone().change(k, c));
        }
    }

    fn refused_previews(&mut self, plan: &Plan, changes: &[(usize, u32)], pairs: &[(usize, usize)]) {
        for &(s, t) in pairs {
            for &(k, c) in changes {
                self.refused(format!("preview link {k} to {c}, pair {s} {t}"), plan.preview(k, c, s, t));
            }
        }
    }

    fn window(&mut self, what: &str, (last, lowest, count): Numbers) {
        self.say(format!("{what} last {last}, lowest {lowest}, count {count}"));
    }

    fn reset(&mut self, list: &mut List) {
        list.reset();
        self.window("reset:", list.numbers());
    }

    fn reading(&mut self, call: String, (number, text): Reply, numbers: Numbers) {
        match number {
            0 => self.window(&format!("{call}: [{text}]"), numbers),
            _ => self.say(format!("{call}: refused {number}")),
        }
    }

    fn readings(&mut self, list: &mut List, plan: &Plan, (s, t): (usize, usize), demands: &[u32]) {
        for &demand in demands {
            let reply = list.reading(plan.headroom(s, t, demand));
            self.reading(format!("reading {s} {t}, demand {demand}"), reply, list.numbers());
        }
    }

    fn booked(&mut self, list: &mut List, plan: &Plan, times: &[(&str, u32)]) {
        for (time, demand) in times {
            let (number, text) = list.reading(plan.headroom(1, 3, *demand));
            let lowest = list.numbers().1;
            let behind = if number == 0 { format!("lowest {lowest}") } else { format!("refused {number}") };
            self.say(format!("{time} booked {demand:>10}: [{text}] {behind}"));
        }
    }

    fn opening(&mut self, what: String, file: &[u8]) {
        let (number, place) = model::read(file).map_or_else(|f| (f.number, f.place), |_| (0, 0));
        self.say(format!("open{what}: number {number}, place {place}"));
    }

    fn must_be(&self, stored: &str) {
        print!("{}", self.0);
        for (i, (want, line)) in self.0.lines().zip(stored.lines()).enumerate() {
            assert_eq!(line, want, "line {}", i + 1);
        }
        assert_eq!(stored, self.0);
    }
}

fn asked(lines: &mut Lines) {
    let plan = resort_a();
    lines.say("open resort A: place 0");
    lines.plan(&plan);
    for demand in [0, 5, 6, 7, 11, 16, 106, 1_000_000_000] {
        let value = plan.headroom(1, 3, demand).unwrap();
        lines.say(format!("headroom 1 3, demand {demand}: [{}] {value}", model::text(value)));
    }
    lines.pairs(&plan);
    for change in [(1, 1), (3, 4)] {
        for s in 0..4 {
            for t in (0..4).filter(|&t| t != s) {
                lines.preview(&plan, change, (s, t));
            }
        }
    }
}

fn changed(lines: &mut Lines) {
    for (k, c) in [(1, 1), (3, 4), (0, 5), (2, 0), (4, 8_000_000)] {
        let mut plan = resort_a();
        lines.say(format!("change link {k} to {c}: {} not kept", plan.change(k, c).unwrap()));
        lines.plan(&plan);
        lines.pairs(&plan);
        lines.preview(&plan, (k, resort_a().net.links[k].2), (3, 1));
        lines.say(format!("undo: {} not kept", plan.undo().unwrap()));
        lines.tree(&plan);
        lines.preview(&plan, (k, c), (3, 1));
    }
}

// rows 16 and 18 are written here from the paper's table: the model has no buffers
fn refused(lines: &mut Lines) {
    let plan = resort_a();
    lines.refused_changes(&plan);
    lines.preview(&plan, (1, 1), (3, 1));
    lines.refused("undo".to_string(), plan.clone().undo());
    for (s, t) in NO_PAIRS {
        lines.refused(format!("pair {s} {t}"), plan.pair(s, t));
    }
    lines.refused_previews(&plan, &NO_CHANGES, &[(3, 1), (4, 4), (2, 2)]);
    lines.refused_previews(&plan, &[(1, 1)], &NO_PAIRS);
    for (s, t) in NO_PAIRS {
        lines.refused(format!("flow {s} {t} into 4 places"), plan.pair(s, t));
    }
    for (s, t) in NO_PAIRS {
        lines.refused(format!("headroom {s} {t}, demand 1000000001"), plan.headroom(s, t, 1_000_000_001));
    }
    for places in [4, 6, 0] {
        lines.say(format!("flow 1 3 into {places} places: refused 16"));
    }
    for demand in [1_000_000_001, u32::MAX] {
        lines.refused(format!("headroom 1 3, demand {demand}"), plan.headroom(1, 3, demand));
    }
    for room in [16, 0] {
        lines.say(format!("write into {room} bytes: refused 18"));
    }
}

fn read(lines: &mut Lines) {
    let some = [0, 11, 6, 7, 5];
    let mut plan = resort_a();
    let mut list = List::of(vec![Told::Reset]);
    lines.window("reset:", list.numbers());
    lines.reset(&mut list);
    lines.readings(&mut list, &plan, (1, 3), &some);
    plan.change(2, 0).unwrap();
    lines.readings(&mut list, &plan, (3, 1), &some);
    lines.readings(&mut list, &plan, (1, 3), &[1_000_000_001]);
    plan.undo().unwrap();
    lines.readings(&mut list, &plan, (1, 3), &[105, 106, 107, 1_000_000_000, 0]);
    lines.reset(&mut list);
    for pair in NO_PAIRS {
        lines.readings(&mut list, &plan, pair, &[1_000_000_001]);
    }
    plan.change(4, 8_000_000).unwrap();
    lines.readings(&mut list, &plan, (0, 2), &[7_999_997, 7_999_906, 7_999_905, 7_999_006, 7_999_005, 0, u32::MAX]);
    lines.readings(&mut list, &plan, (0, 1), &[4]);
}

fn read_any_record(lines: &mut Lines) {
    let (low, high) = (i32::MIN as i64, i32::MAX as i64);
    let few = [(1, low, 0), (low, high, 0), (high, low, 1), (0, high, 1)];
    let many = [(3, -6, 999_998), (3, 2, 1_000_000), (3, 2, 1_000_001), (low, high, u32::MAX as u64)];
    let faulty = [(0, 4, 1_000_000_001), (2, 2, 1_000_000_001), (1, 3, 1_000_000_001)];
    for mut record in few.into_iter().chain(many) {
        lines.window("record:", record);
        for (s, t, demand) in faulty.into_iter().chain([(1, 3, 11), (1, 3, 13), (1, 3, 5)]) {
            let (behind, reply) = window::reading(record, resort_a().headroom(s, t, demand));
            lines.reading(format!("reading {s} {t}, demand {demand}"), reply, behind);
            record = behind;
        }
    }
}

fn stacked(lines: &mut Lines) {
    let mut plan = resort_a();
    let counts: String =
        (0..64).map(|k| format!(" {}", plan.change(k * 3 % 5, (k * 7 % 12) as u32).unwrap())).collect();
    lines.say(format!("changes, not kept:{counts}"));
    lines.plan(&plan);
    lines.pairs(&plan);
    lines.refused("change link 0 to 1".to_string(), plan.clone().change(0, 1));
    lines.refused_changes(&plan);
    lines.refused_previews(&plan, &[(1, 1)], &NO_PAIRS);
    lines.refused_previews(&plan, &[(0, 1)], &[(3, 1)]);
    lines.refused_previews(&plan, &NO_CHANGES, &[(3, 1)]);
    let mut one_less = plan.clone();
    one_less.undo().unwrap();
    lines.preview(&one_less, (4, 9), (2, 0));
    let counts: String = (0..64).map(|_| format!(" {}", plan.undo().unwrap())).collect();
    lines.say(format!("undos, not kept:{counts}"));
    lines.refused("undo".to_string(), plan.undo());
}

fn written(lines: &mut Lines) {
    let mut plan = resort_a();
    lines.say(format!("write into 17 bytes{}", hexadecimal(&plan.net.file())));
    for (k, c) in [(1, 8_000_000), (3, 130), (3, 0)] {
        plan.change(k, c).unwrap();
    }
    let file = plan.net.file();
    lines.say(format!("write into 1539 bytes{}", hexadecimal(&file)));
    lines.say(format!("write into {} bytes{}", file.len(), hexadecimal(&file)));
    lines.plan(&Plan::open(&file).unwrap());
}

// the highest weight, of all 256 links between two nodes at the highest capacity, and the lowest, of no link
fn at_the_ends(lines: &mut Lines) {
    let changes = [(255, 0), (0, 7_999_999)];
    for (links, changes) in [(vec![(0, 1, 8_000_000); 256], &changes[..]), (vec![], &[])] {
        let mut plan = Plan::open(&Network { nodes: 2, links }.file()).unwrap();
        lines.say(format!("two nodes and {} links", plan.net.links.len()));
        lines.tree(&plan);
        lines.pairs(&plan);
        for demand in [0, 1, 999_999_999, 1_000_000_000] {
            let value = plan.headroom(1, 0, demand).unwrap();
            lines.say(format!("headroom 1 0, demand {demand}: [{}] {value}", model::text(value)));
        }
        let mut list = List::of(vec![Told::Reset]);
        lines.window("reset:", list.numbers());
        lines.readings(&mut list, &plan, (0, 1), &[0, 1_000_000_000, 1_000_000_001]);
        for &(k, c) in changes {
            lines.preview(&plan, (k, c), (1, 0));
            lines.say(format!("change link {k} to {c}: {} not kept", plan.change(k, c).unwrap()));
            lines.pairs(&plan);
            lines.say(format!("undo: {} not kept", plan.undo().unwrap()));
            lines.tree(&plan);
        }
    }
}

fn opened(lines: &mut Lines) {
    for file in FILES {
        lines.opening(hexadecimal(file), file);
    }
    let links = (0..256).map(|k| (k % 63, 63, 8_000_000 - k as u32)).collect();
    let mut longest = Network { nodes: 64, links }.file();
    longest.push(0);
    for length in 1538..=1540 {
        lines.opening(format!(" {length} bytes of the longest file"), &longest[..length]);
    }
    for file in [&RESORT_A[..], &RESORT_A[..4]] {
        let listing = model::listing(file);
        lines.say(format!("listing of {} bytes\n{}", listing.len(), listing.trim_end()));
    }
}

#[test]
fn life_of_resort_a() {
    let mut lines = Lines(String::new());
    for part in [asked, changed, refused, read, read_any_record, stacked, written, at_the_ends, opened] {
        part(&mut lines);
    }
    lines.must_be(include_str!("../../tests/c/life.out"));
}

/// A gate's evening between nodes 1 and 3.
#[test]
fn evening_of_resort_a() {
    let (mut lines, mut list, mut plan) = (Lines(String::new()), List::of(vec![Told::Reset]), resort_a());
    lines.say("16:00 the gate opens");
    lines.booked(&mut list, &plan, &[("16:05", 1), ("17:00", 3), ("18:00", 5)]);
    plan.change(2, 0).unwrap();
    lines.say("18:20 link 2 fails");
    lines.booked(&mut list, &plan, &[("18:30", 5), ("18:40", 2_000_000_000), ("18:41", 4)]);
    plan.undo().unwrap();
    lines.say("18:50 link 2 is repaired");
    lines.booked(&mut list, &plan, &[("19:00", 6), ("20:00", 4), ("21:30", 2)]);
    let (last, lowest, count) = list.numbers();
    lines.say(format!("22:00 the gate closes: {count} readings, lowest {lowest}, last {last}"));
    lines.must_be(include_str!("../../examples/evening.out"));
}
