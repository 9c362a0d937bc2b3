//! Previews: which of them histories had, and histories with their previews taken out.
use crate::calls::{Call, random_call};
use crate::cases;
use crate::model::Plan;
use crate::random::Random;
use pamzolit::{Headroom, Link, Node, Pair, Preview, Refusal};

/// How many calls were made, and of which kinds their previews are by the model.
#[derive(Debug, Default)]
pub struct Seen {
    pub calls: usize,
    /// by number, 0 for those that are accepted
    pub previews: [usize; 20],
    /// of these the ones whose change and whose pair are both at fault
    both: usize,
}

impl Seen {
    pub fn count(&mut self, want: &Plan, call: Call) {
        self.calls += 1;
        if let Call::Preview { link, capacity, s, t } = call {
            self.previews[want.preview(link, capacity, s, t).err().unwrap_or(0) as usize] += 1;
            self.both += (want.clone().change(link, capacity).is_err() && want.pair(s, t).is_err()) as usize;
        }
    }

    /// What no preview was answered by was not compared.
    pub fn must_have(&self, numbers: &[usize]) {
        println!("{self:?}, 0 disagreements");
        assert!(numbers.iter().all(|&number| self.previews[number] > 10) && self.both > 10, "{self:?}");
    }
}

#[derive(Debug, PartialEq)]
enum Reply {
    Count(Result<u32, Refusal>),
    Pair(Result<Pair, Refusal>),
    Preview(Result<Preview, Refusal>),
    Flow(Result<(), Refusal>, Vec<i32>),
    Headroom(Result<Headroom, Refusal>),
    Write(Result<usize, Refusal>, Vec<u8>),
}

fn made(plan: &mut pamzolit::Plan, call: Call) -> Reply {
    match call {
        Call::Change { link, capacity } => Reply::Count(plan.change(Link(link), capacity)),
        Call::Undo => Reply::Count(plan.undo()),
        Call::Pair { s, t } => Reply::Pair(plan.pair(Node(s), Node(t))),
        Call::Preview { link, capacity, s, t } => Reply::Preview(plan.preview(Link(link), capacity, Node(s), Node(t))),
        Call::Flow { s, t, length } => {
            let mut out = vec![7; length];
            Reply::Flow(plan.flow_into(Node(s), Node(t), &mut out), out)
        }
        Call::Headroom { s, t, demand } => Reply::Headroom(plan.headroom(Node(s), Node(t), demand)),
        Call::Write { length } => {
            let mut out = vec![7; length];
            Reply::Write(plan.write_into(&mut out), out)
        }
    }
}

/// Calls on the model's plan, which takes the changes and undos among them.
fn drawn(random: &mut Random, mut want: Plan, filling: bool, seen: &mut Seen) -> Vec<Call> {
    let mut calls = Vec::new();
    for _ in 0..random.below(400) {
        let call = random_call(random, &want, filling);
        seen.count(&want, call);
        calls.push(call);
        match call {
            Call::Change { link, capacity } => _ = want.change(link, capacity),
            Call::Undo => _ = want.undo(),
            _ => {}
        }
    }
    calls
}

/// A history and the same one without its previews leave the same plan, and have the same replies otherwise.
#[test]
fn previews_taken_out() {
    let mut random = Random::new(13);
    let mut seen = Seen::default();
    for i in 0..cases("PAMZOLIT_HISTORIES", 20_000) / 200 {
        let file = random.network(5, 8).file();
        let calls = drawn(&mut random, Plan::open(&file).unwrap(), i % 2 == 0, &mut seen);
        let others = calls.iter().copied().filter(|call| !matches!(call, Call::Preview { .. }));
        let (mut with, mut without) = (pamzolit::Plan::open(&file).unwrap(), pamzolit::Plan::open(&file).unwrap());
        let mut replies: Vec<Reply> = calls.iter().map(|&call| made(&mut with, call)).collect();
        replies.retain(|reply| !matches!(reply, Reply::Preview(_)));
        let right = others.map(|call| made(&mut without, call)).eq(replies) && with == without;
        assert!(right, "file {file:02x?}, {calls:?}: {with:?}, without previews {without:?}");
    }
    seen.must_have(&[0, 10, 11, 12, 14, 15]);
}

/// P3 and P4 on resort A as it is opened, by hand from the scope's section 10, and on P5's plan, which is P4's undone.
#[test]
fn previews_of_resort_a() {
    let first = pamzolit::Plan::open(&[4, 5, 0, 1, 5, 1, 2, 3, 2, 3, 4, 0, 3, 2, 0, 2, 1]).unwrap();
    let mut undone = first.clone();
    assert_eq!((undone.change(Link(3), 4), undone.undo()), (Ok(2), Ok(3)));
    for plan in [first, undone] {
        let shown = |link, capacity, s, t| {
            let preview = plan.preview(Link(link), capacity, Node(s), Node(t)).unwrap();
            (preview.pair.weight, preview.pair.node.0, preview.pair.side.bits(), preview.pair.size, preview.count)
        };
        assert_eq!(shown(1, 1, 3, 1), (4, 2, 0b1100, 2, 1));
        assert_eq!(shown(1, 1, 2, 3), (6, 3, 0b0111, 3, 1));
        assert_eq!(shown(3, 4, 1, 3), (8, 1, 0b0010, 1, 2));
        assert_eq!(shown(3, 4, 3, 2), (8, 2, 0b1011, 3, 2));
        assert_eq!(plan.tree().map(|edge| edge.weight).collect::<Vec<_>>(), [8, 6, 6]);
        assert_eq!(plan.changes().len(), 0);
    }
}
