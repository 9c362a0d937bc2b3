//! The lines of crates/readings/stdout by the independent model: what must come of each line of stdin. With
//! `-- --nocapture` they are printed. Where a line edits the plan's memory (`bend`), the lines from there to the next
//! opening are by hand: the model has no memory that could be edited.
mod model;
use model::window;
use model::{CAPACITY, Network, Plan};

/// A buffer of flows has so many places, and of a file's buffer so many bytes are shown.
const PLACES: usize = 257;
const SHOWN: usize = 24;

/// The longest file, and a byte more.
fn longest() -> Vec<u8> {
    let capacity = |k| CAPACITY - 128 * 36 + 128 * (k as u32 % 37);
    let links = (0..256).map(|k| (k % 64, (k + 1) % 64, capacity(k))).collect();
    [Network { nodes: 64, links }.file(), vec![0]].concat()
}

/// Two nodes with 256 links of the highest capacity between them, and a byte more.
fn joined() -> Vec<u8> {
    [Network { nodes: 2, links: vec![(0, 1, CAPACITY); 256] }.file(), vec![0]].concat()
}

/// Two nodes, m in the two bytes given, and 257 links of capacity 0.
fn many(low: u8, high: u8) -> Vec<u8> {
    [vec![2, low, high], [0, 1, 0].repeat(257)].concat()
}

fn refused_or<T>(reply: Result<T, u32>, accepted: impl Fn(T) -> String, behind: &str) -> String {
    reply.map_or_else(|number| format!(" refused {number}{behind}"), accepted)
}

fn not_kept(reply: Result<u32, u32>) -> String {
    refused_or(reply, |count| format!(" not kept {count}"), " not kept 0")
}

fn found((weight, node, side, size): model::Pair) -> String {
    format!(" weight {weight} node {node} side {side} size {size}")
}

/// The plan that the lines so far left; none beside a refused file.
struct Run {
    plan: Option<Plan>,
    edited: bool,
}

/// A command's words.
struct Words<'a>(Vec<&'a str>);

impl Words<'_> {
    /// of a line, behind its label
    fn of(line: &str) -> Words<'_> {
        Words(line.split_once(": ").unwrap().1.split(' ').collect())
    }

    fn signed(&self, i: usize) -> i64 {
        self.0[i].parse().unwrap()
    }

    fn number<T: TryFrom<i64, Error: std::fmt::Debug>>(&self, i: usize) -> T {
        self.signed(i).try_into().unwrap()
    }

    /// of the file, the first so many bytes
    fn front(&self, i: usize, file: Vec<u8>) -> Vec<u8> {
        file[..self.number(i)].to_vec()
    }

    fn bytes(&self) -> Vec<u8> {
        self.0[1..].iter().map(|byte| u8::from_str_radix(byte, 16).unwrap()).collect()
    }
}

impl Run {
    fn plan(&self) -> Result<&Plan, u32> {
        self.plan.as_ref().ok_or(19)
    }

    fn net(&self) -> Network {
        self.plan.as_ref().map_or(Network { nodes: 0, links: vec![] }, |plan| plan.net.clone())
    }

    fn open(&mut self, file: Vec<u8>) -> String {
        let opened = Plan::open(&file);
        self.plan = opened.clone().ok();
        self.edited = false;
        match opened {
            Err(fault) => format!(" refused {} at {}", fault.number, fault.place),
            Ok(Plan { net, .. }) => {
                let last = net.links.last().map_or(String::new(), |(a, b, c)| format!(" last {a} {b} {c}"));
                format!(" accepted nodes {} links {}{last}", net.nodes, net.links.len())
            }
        }
    }

    fn alter(&mut self, call: impl Fn(&mut Plan) -> Result<u32, u32>) -> Result<u32, u32> {
        self.plan.as_mut().map_or(Err(19), call)
    }

    fn until_refused(&mut self, call: impl Fn(&mut Plan) -> Result<u32, u32> + Copy) -> String {
        let turns = (0..).find(|_| self.alter(call).is_err()).unwrap();
        format!(" turns {turns}{}", not_kept(self.alter(call)))
    }

    fn tree(&self) -> String {
        let edge = |tree: &model::Tree, i: usize| format!(" ({i} {} {})", tree.parent[i], tree.weight[i]);
        self.plan.iter().flat_map(|plan| (1..plan.net.nodes).map(|i| edge(&plan.tree, i))).collect()
    }

    fn steps(&self) -> String {
        let steps = self.plan.iter().flat_map(|plan| &plan.tree.steps[1..]);
        steps.map(|(pivot, side, value)| format!(" ({pivot} {side} {value})")).collect()
    }

    fn edge(&self) -> String {
        let (node, weight) = self.plan.as_ref().map_or((0, 0), |plan| plan.tree.lightest());
        format!(" node {node} weight {weight}")
    }

    fn network(&self) -> String {
        let capacities: String = self.net().links.iter().map(|link| format!(" {}", link.2)).collect();
        let stack = self.plan.iter().flat_map(|plan| plan.stack.iter().enumerate());
        let entries: String = stack.map(|(i, (link, capacity))| format!(" ({i} {link} {capacity})")).collect();
        format!(" capacities{capacities} stack{entries}")
    }

    // row 16 is written here from the paper's table: the model has no buffers
    fn flow(&self, s: usize, t: usize, length: usize) -> String {
        let net = self.net();
        let fits = |pair| if length == net.links.len() { Ok(pair) } else { Err(16) };
        let total = self.plan().and_then(|plan| plan.pair(s, t)).and_then(fits).map(|pair| pair.0 as i64);
        let balance = |total: i64, i| if i == s { total } else { -total * i64::from(i == t) };
        let balances = |total| (0..net.nodes).map(|i| format!(" {}", balance(total, i))).collect::<String>();
        refused_or(total, |total| format!(" balances{} over 0", balances(total)), &format!(" unaltered {PLACES}"))
    }

    // and so is row 18
    fn write(&self, length: usize) -> String {
        let file = self.net().file();
        let written = self.plan().and_then(|_| if length < file.len() { Err(18) } else { Ok(&file[..]) });
        let mut out = vec![0xee; length];
        out.splice(..written.map_or(0, |file| file.len()), written.unwrap_or_default().iter().copied());
        let shown: String = out.iter().filter(|_| length <= SHOWN).map(|byte| format!(" {byte:02x}")).collect();
        refused_or(written, |file| format!(" length {}", file.len()), " length 0") + &shown
    }

    fn gate(&self, headroom: Result<i64, u32>, record: window::Numbers) -> String {
        let ((last, lowest, count), (number, text)) = window::reading(record, headroom);
        let refused = if number == 0 { String::new() } else { format!(" refused {number}") };
        format!("{refused} [{text}] last {last} lowest {lowest} count {count}")
    }

    /// What comes of a command. None on a plan that was edited.
    fn answer(&mut self, words: Words) -> Option<String> {
        let (x, plan) = (&words, self.plan().cloned());
        let headroom = || plan.as_ref().map_err(|e| *e)?.headroom(x.number(1), x.number(2), x.number(3));
        self.edited |= words.0[0] == "bend";
        let answer = match words.0[0] {
            "open" => self.open(words.bytes()),
            "longest" => self.open(words.front(1, longest())),
            "joined" => self.open(words.front(1, joined())),
            "many" => self.open(words.front(3, many(words.number(1), words.number(2)))),
            _ if self.edited => return None,
            "again" => self.open(self.net().file()),
            "change" => not_kept(self.alter(|plan| plan.change(x.number(1), x.number(2)))),
            "undo" => not_kept(self.alter(Plan::undo)),
            "repeat" => self.until_refused(|plan| plan.change(x.number(1), x.number(2))),
            "drain" => self.until_refused(Plan::undo),
            "tree" => self.tree(),
            "edge" => self.edge(),
            "steps" => self.steps(),
            "network" => self.network(),
            "pair" => refused_or(plan.and_then(|plan| plan.pair(x.number(1), x.number(2))), found, ""),
            "view" => {
                let (k, c, s, t) = (x.number(1), x.number(2), x.number(3), x.number(4));
                let shown = |(pair, count)| format!("{} not kept {count}", found(pair));
                refused_or(plan.and_then(|plan| plan.preview(k, c, s, t)), shown, " not kept 0")
            }
            "headroom" => {
                let shown = |tenths| format!(" {tenths} [{}]", model::text(tenths));
                refused_or(headroom(), shown, &format!(" 0 [{:12}]", ""))
            }
            "gate" => self.gate(headroom(), (x.signed(4), x.signed(5), x.number(6))),
            "flow" => self.flow(x.number(1), x.number(2), x.number(3)),
            "write" => self.write(x.number(1)),
            other => panic!("no command: {other}"),
        };
        Some(answer)
    }
}

#[test]
fn readings() {
    let (lines, stored) = (include_str!("../../crates/readings/stdin"), include_str!("../../crates/readings/stdout"));
    assert_eq!(lines.lines().count(), stored.lines().count());
    let mut run = Run { plan: None, edited: false };
    let answers: Vec<Option<String>> = lines.lines().map(|line| run.answer(Words::of(line))).collect();
    let pairs = lines.lines().zip(answers).zip(stored.lines());
    let by_model = |((line, answer), stored): ((&str, Option<String>), &str)| {
        answer.map_or(stored.to_string(), |answer| format!("{line} ->{answer}"))
    };
    let got: Vec<String> = pairs.clone().map(by_model).collect();
    println!("{}", got.join("\n"));
    assert!(pairs.clone().all(|((line, _), stored)| stored.starts_with(&format!("{line} ->"))));
    assert!(pairs.filter(|((_, answer), _)| answer.is_some()).count() > 2 * got.len() / 3);
    for (i, (got, want)) in got.iter().zip(stored.lines()).enumerate() {
        assert_eq!(got, want, "line {}", i + 1);
    }
}
