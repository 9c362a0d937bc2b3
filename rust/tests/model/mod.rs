//! An independent model of documents 01 and 02, by definition and not by the library's algorithm: every side is tried
//! where the network is small, and a preflow-push over a matrix gives the least minimum cut where it is large. It
//! shares no code with the library.
#![allow(dead_code)] // each test uses its part

pub mod window;

pub const SMALL: usize = 9;

/// The highest capacity, in tenths of a megabit per second.
pub const CAPACITY: u32 = 8_000_000;

/// The groups of a number of a file, at most.
pub const GROUPS: usize = 4;

#[derive(Clone, Debug, PartialEq, Eq)]
pub struct Network {
    pub nodes: usize,
    pub links: Vec<(usize, usize, u32)>,
}

#[derive(Clone, Copy, Debug, PartialEq, Eq)]
pub struct Fault {
    pub number: u32,
    pub place: usize,
}

fn fault<T>(number: u32, place: usize) -> Result<T, Fault> {
    Err(Fault { number, place })
}

// ---- the file

fn number(file: &[u8], at: &mut usize) -> Result<u32, Fault> {
    let start = *at;
    let bytes: Vec<u8> = file[start..].iter().copied().take(GROUPS).collect();
    let last = bytes.iter().position(|b| b & 0x80 == 0);
    let Some(last) = last else {
        return fault(if bytes.len() < GROUPS { 1 } else { 2 }, start);
    };
    if last > 0 && bytes[last] == 0 {
        return fault(3, start);
    }
    *at = start + last + 1;
    Ok((0..=last).rev().fold(0, |v, i| v << 7 | (bytes[i] & 0x7f) as u32))
}

pub fn read(file: &[u8]) -> Result<Network, Fault> {
    let mut at = 0;
    let n = number(file, &mut at)? as usize;
    if !(1..=64).contains(&n) {
        return fault(4, 0);
    }
    let place = at;
    let m = number(file, &mut at)? as usize;
    if m > 256 {
        return fault(5, place);
    }
    let mut links = Vec::new();
    for _ in 0..m {
        let place = at;
        let a = number(file, &mut at)? as usize;
        if a >= n {
            return fault(6, place);
        }
        let place = at;
        let b = number(file, &mut at)? as usize;
        if b >= n {
            return fault(6, place);
        }
        if b == a {
            return fault(7, place);
        }
        let place = at;
        let c = number(file, &mut at)?;
        if c > CAPACITY {
            return fault(8, place);
        }
        links.push((a, b, c));
    }
    if at < file.len() {
        return fault(9, at);
    }
    Ok(Network { nodes: n, links })
}

fn put(out: &mut Vec<u8>, mut v: u32) {
    while v >= 128 {
        out.push((v % 128) as u8 | 0x80);
        v /= 128;
    }
    out.push(v as u8);
}

impl Network {
    pub fn file(&self) -> Vec<u8> {
        let mut out = Vec::new();
        put(&mut out, self.nodes as u32);
        put(&mut out, self.links.len() as u32);
        for &(a, b, c) in &self.links {
            put(&mut out, a as u32);
            put(&mut out, b as u32);
            put(&mut out, c);
        }
        out
    }

    pub fn crosses(&self, side: u64, k: usize) -> bool {
        let (a, b, _) = self.links[k];
        (side >> a & 1) != (side >> b & 1)
    }

    pub fn value(&self, side: u64) -> u64 {
        (0..self.links.len()).filter(|&k| self.crosses(side, k)).map(|k| self.links[k].2 as u64).sum()
    }

    /// The least minimum cut of (s, t) and its value.
    pub fn least_cut(&self, s: usize, t: usize) -> (u64, u64) {
        if self.nodes <= SMALL { self.least_by_trial(s, t) } else { self.least_by_preflow(s, t) }
    }

    /// Every side is tried; of the cheapest ones that hold s and not t, the common part is taken and must itself be
    /// one of them.
    pub fn least_by_trial(&self, s: usize, t: usize) -> (u64, u64) {
        let sides = (0..1u64 << self.nodes).filter(|x| x >> s & 1 == 1 && x >> t & 1 == 0);
        let mut best = u64::MAX;
        let mut common = u64::MAX;
        for x in sides {
            let v = self.value(x);
            if v < best {
                best = v;
                common = x;
            } else if v == best {
                common &= x;
            }
        }
        assert_eq!(self.value(common), best, "minimum cuts have a least one");
        (common, best)
    }

    /// Preflow-push from t towards s. What can still be pushed to s at the end is the smallest side of s of a
    /// minimum cut.
    pub fn least_by_preflow(&self, s: usize, t: usize) -> (u64, u64) {
        let n = self.nodes;
        let mut rest = vec![vec![0i64; n]; n];
        for &(a, b, c) in &self.links {
            rest[a][b] += c as i64;
            rest[b][a] += c as i64;
        }
        let (source, sink) = (t, s);
        let mut height = vec![0usize; n];
        let mut excess = vec![0i64; n];
        height[source] = n;
        for v in 0..n {
            let d = rest[source][v];
            rest[source][v] -= d;
            rest[v][source] += d;
            excess[v] += d;
        }
        while let Some(u) = (0..n).find(|&u| u != source && u != sink && excess[u] > 0 && height[u] < n) {
            let next = (0..n).find(|&v| rest[u][v] > 0 && height[u] == height[v] + 1);
            if let Some(v) = next {
                let d = excess[u].min(rest[u][v]);
                rest[u][v] -= d;
                rest[v][u] += d;
                excess[u] -= d;
                excess[v] += d;
            } else {
                height[u] = (0..n).filter(|&v| rest[u][v] > 0).map(|v| height[v] + 1).min().unwrap_or(n).min(n);
            }
        }
        // the nodes from which the sink can still be reached
        let mut side = 1u64 << sink;
        loop {
            let more = (0..n)
                .filter(|&u| side >> u & 1 == 0)
                .filter(|&u| (0..n).any(|v| side >> v & 1 == 1 && rest[u][v] > 0))
                .fold(0u64, |w, u| w | 1 << u);
            if more == 0 {
                break;
            }
            side |= more;
        }
        (side, self.value(side))
    }
}

// ---- the tree

#[derive(Clone, Debug, PartialEq, Eq)]
pub struct Tree {
    pub parent: Vec<usize>,
    pub weight: Vec<u64>,
    /// for each node from 1 up: pivot, side, value
    pub steps: Vec<(usize, u64, u64)>,
    /// for each node from 1 up the nodes below its edge, itself among them; for node 0 all
    pub below: Vec<u64>,
}

/// Weight, node, side, size.
pub type Pair = (u64, usize, u64, u32);

/// The set of v, its children, their children and so on.
fn subtree(parent: &[usize], v: usize) -> u64 {
    let mut set = 1u64 << v;
    loop {
        let children = (1..parent.len()).filter(|&i| set >> parent[i] & 1 == 1).fold(0, |w, i| w | 1u64 << i);
        if set | children == set {
            return set;
        }
        set |= children;
    }
}

impl Tree {
    /// Gusfield's rule as document 01 says it.
    pub fn of(net: &Network) -> Tree {
        let n = net.nodes;
        let mut parent = vec![0; n];
        let mut weight = vec![0; n];
        let mut steps = vec![(0, 0, 0); n];
        for s in 1..n {
            let t = parent[s];
            let (x, w) = net.least_cut(s, t);
            weight[s] = w;
            for (h, above) in parent.iter_mut().enumerate() {
                if h != s && x >> h & 1 == 1 && *above == t {
                    *above = s;
                }
            }
            let q = parent[t];
            if x >> q & 1 == 1 {
                parent[s] = q;
                weight[s] = weight[t];
                parent[t] = s;
                weight[t] = w;
            }
            steps[s] = (t, x, w);
        }
        let below = (0..n).map(|v| subtree(&parent, v)).collect();
        Tree { parent, weight, steps, below }
    }

    /// The node from 1 up with the lightest weight, the lowest number among equals, and that weight; both 0 with one
    /// node.
    pub fn lightest(&self) -> (usize, u64) {
        let mut edges: Vec<(u64, usize)> = self.weight.iter().copied().zip(0..).skip(1).collect();
        edges.sort();
        edges.first().map_or((0, 0), |&(weight, node)| (node, weight))
    }

    /// The edges of the path between s and t: those that separate s from t.
    pub fn path(&self, s: usize, t: usize) -> impl Iterator<Item = usize> {
        (1..self.parent.len()).filter(move |&v| (self.below[v] >> s ^ self.below[v] >> t) & 1 == 1)
    }

    /// The side of s once the edge of v is cut.
    pub fn side(&self, v: usize, s: usize) -> u64 {
        if self.below[v] >> s & 1 == 1 { self.below[v] } else { self.below[0] & !self.below[v] }
    }

    /// Of the path's edges the least by weight and then by number.
    pub fn pair(&self, s: usize, t: usize) -> Pair {
        let (weight, node) = self.path(s, t).map(|v| (self.weight[v], v)).min().unwrap();
        let side = self.side(node, s);
        (weight, node, side, side.count_ones())
    }
}

/// The steps not kept as link k goes to capacity d: recorded steps of the tree before, pivots of the tree after.
pub fn not_kept(net: &Network, before: &Tree, after: &Tree, k: usize, d: u32) -> u32 {
    let c = net.links[k].2;
    (1..net.nodes)
        .filter(|&s| {
            let (pivot, side, value) = before.steps[s];
            let crossed = net.crosses(side, k);
            let survives = if d == c {
                true
            } else if d > c {
                !crossed
            } else {
                crossed && value >= (c - d) as u64
            };
            !(after.steps[s].0 == pivot && survives)
        })
        .count() as u32
}

// ---- text

pub fn text(tenths: i64) -> String {
    let sign = if tenths < 0 { "-" } else { "" };
    let size = tenths.unsigned_abs();
    format!("{:>12}", format!("{sign}{}.{}", size / 10, size % 10))
}

pub fn listing(file: &[u8]) -> String {
    let net = match read(file) {
        Err(f) => return format!("refused {} {}\n", f.number, f.place),
        Ok(net) => net,
    };
    let tree = Tree::of(&net);
    let mut out = String::new();
    for i in 1..net.nodes {
        out += &format!("tree {i} {} {}\n", tree.parent[i], tree.weight[i]);
    }
    for s in 0..net.nodes {
        for t in s + 1..net.nodes {
            let (w, _, side, _) = tree.pair(s, t);
            out += &format!("pair {s} {t} {w} {side}\n");
        }
    }
    out
}

// ---- the plan, with its history

#[derive(Clone, Debug)]
pub struct Plan {
    pub net: Network,
    pub tree: Tree,
    pub stack: Vec<(usize, u32)>,
}

impl Plan {
    pub fn open(file: &[u8]) -> Result<Plan, Fault> {
        let net = read(file)?;
        let tree = Tree::of(&net);
        Ok(Plan { net, tree, stack: Vec::new() })
    }

    fn set(&mut self, k: usize, c: u32) -> u32 {
        let mut net = self.net.clone();
        net.links[k].2 = c;
        let tree = Tree::of(&net);
        let count = not_kept(&self.net, &self.tree, &tree, k, c);
        self.net = net;
        self.tree = tree;
        count
    }

    pub fn change(&mut self, k: usize, c: u32) -> Result<u32, u32> {
        if k >= self.net.links.len() {
            return Err(10);
        }
        if c > CAPACITY {
            return Err(11);
        }
        if self.stack.len() == 64 {
            return Err(12);
        }
        self.stack.push((k, self.net.links[k].2));
        Ok(self.set(k, c))
    }

    pub fn undo(&mut self) -> Result<u32, u32> {
        let (k, c) = self.stack.pop().ok_or(13u32)?;
        Ok(self.set(k, c))
    }

    pub fn pair(&self, s: usize, t: usize) -> Result<Pair, u32> {
        if s >= self.net.nodes || t >= self.net.nodes {
            return Err(14);
        }
        if s == t {
            return Err(15);
        }
        Ok(self.tree.pair(s, t))
    }

    /// A change followed by a pair on a copy: the pair's reply, and the change's count of steps not kept.
    pub fn preview(&self, k: usize, c: u32, s: usize, t: usize) -> Result<(Pair, u32), u32> {
        let mut copy = self.clone();
        let count = copy.change(k, c)?;
        Ok((copy.pair(s, t)?, count))
    }

    pub fn headroom(&self, s: usize, t: usize, demand: u32) -> Result<i64, u32> {
        let (w, ..) = self.pair(s, t)?;
        if demand > 1_000_000_000 {
            return Err(17);
        }
        Ok(w as i64 - demand as i64)
    }

    /// Whether a flow is lawful for s and t with the total of the cheapest side.
    pub fn flow_is_right(&self, s: usize, t: usize, flow: &[i32]) -> bool {
        let mut out = vec![0i64; self.net.nodes];
        for (k, &(a, b, c)) in self.net.links.iter().enumerate() {
            if flow[k].unsigned_abs() > c {
                return false;
            }
            out[a] += flow[k] as i64;
            out[b] -= flow[k] as i64;
        }
        let total = self.net.least_cut(s, t).1 as i64;
        let due = |h| match h {
            _ if h == s => total,
            _ if h == t => -total,
            _ => 0,
        };
        (0..self.net.nodes).all(|h| out[h] == due(h))
    }
}
