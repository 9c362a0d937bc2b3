//! Histories: each call is made on a held plan and on the model, and compared at once, with all that the plan then
//! holds.
use crate::calls::{Call, random_call};
use crate::cases;
use crate::model::{self, Plan};
use crate::previews::Seen;
use crate::random::Random;
use crate::same::{pair_reply, preview_reply, same_plan};
use pamzolit::{Link, Node, Preview, Refusal};
use std::hint::black_box;

fn numbered<T>(got: Result<T, Refusal>) -> Result<T, u32> {
    got.map_err(|e| e.number())
}

/// A buffer of junk is filled with a lawful flow of the largest total, or left as it was.
fn same_flow(held: &pamzolit::Plan, want: &Plan, s: usize, t: usize, length: usize) -> bool {
    let junk: Vec<i32> = (0..length).map(|i| 7 - i as i32 * 1_000_003).collect();
    let mut buffer = junk.clone();
    let got = numbered(held.flow_into(Node(s), Node(t), &mut buffer));
    let of_pair = want.pair(s, t).map(|_| ());
    let refusal = of_pair.and(if length == want.net.links.len() { Ok(()) } else { Err(16) });
    let filled = if refusal.is_ok() { want.flow_is_right(s, t, &buffer) } else { buffer == junk };
    let whole = match numbered(held.flow(Node(s), Node(t))) {
        Ok(flow) => of_pair.is_ok() && want.flow_is_right(s, t, &flow),
        Err(number) => of_pair == Err(number),
    };
    got == refusal && filled && whole
}

/// The first bytes of a buffer of junk are the file, or all is left as it was.
fn same_file(held: &pamzolit::Plan, want: &Plan, length: usize) -> bool {
    let junk: Vec<u8> = (0..length).map(|i| 0xa5 ^ i as u8).collect();
    let file = want.net.file();
    let mut buffer = junk.clone();
    let got = numbered(held.write_into(&mut buffer));
    let long = file.len() <= length;
    let mut filled = junk;
    if long {
        filled[..file.len()].copy_from_slice(&file);
    }
    got == (if long { Ok(file.len()) } else { Err(18) }) && buffer == filled && held.write() == file
}

/// The reply is the model's, and that of a change followed by a pair on a copy.
fn same_preview(held: &pamzolit::Plan, want: &Plan, (link, capacity): (usize, u32), s: usize, t: usize) -> bool {
    let mut copy = held.clone();
    let got = held.preview(Link(link), capacity, Node(s), Node(t));
    let count = copy.change(Link(link), capacity);
    let by_calls = count.and_then(|count| Ok(Preview { pair: copy.pair(Node(s), Node(t))?, count }));
    preview_reply(got) == want.preview(link, capacity, s, t) && got == by_calls
}

/// Makes a call on both and says whether they agree.
fn agrees(held: &mut pamzolit::Plan, want: &mut Plan, call: Call) -> bool {
    match call {
        Call::Change { link, capacity } => numbered(held.change(Link(link), capacity)) == want.change(link, capacity),
        Call::Undo => numbered(held.undo()) == want.undo(),
        Call::Pair { s, t } => {
            let got = held.pair(Node(s), Node(t));
            pair_reply(got) == want.pair(s, t) && got.map_or(true, |p| p.side.len() == p.size)
        }
        Call::Preview { link, capacity, s, t } => same_preview(held, want, (link, capacity), s, t),
        Call::Flow { s, t, length } => same_flow(held, want, s, t, length),
        Call::Headroom { s, t, demand } => {
            let got = numbered(held.headroom(Node(s), Node(t), demand));
            let right = want.headroom(s, t, demand).map(|z| (z, model::text(z)));
            got.map(|h| (h.tenths() as i64, h.text().to_string())) == right
        }
        Call::Write { length } => same_file(held, want, length),
    }
}

/// The plan is as one opened fresh on the file then written, but for what can be undone.
fn same_when_reopened(held: &pamzolit::Plan) -> bool {
    let fresh = pamzolit::Plan::open(&held.write()).unwrap();
    fresh.changes().len() == 0
        && held.links().eq(fresh.links())
        && held.tree().eq(fresh.tree())
        && held.steps().eq(fresh.steps())
        && held.lightest() == fresh.lightest()
}

/// Whether a call that only asks has left all that the plan's memory holds. The compiler takes that for granted of a
/// plan that is lent for reading; the black boxes keep it from leaving the comparison out.
fn leaves(held: &pamzolit::Plan, before: &pamzolit::Plan, call: Call) -> bool {
    matches!(call, Call::Change { .. } | Call::Undo) || black_box(held) == before
}

/// A history on a random network.
fn one_history(random: &mut Random, most_nodes: usize, most_links: usize, most_calls: usize, seen: &mut Seen) {
    let file = random.network(most_nodes, most_links).file();
    let mut held = pamzolit::Plan::open(&file).unwrap();
    let mut want = Plan::open(&file).unwrap();
    let filling = random.chance(25);
    let mut calls = Vec::new();
    for _ in 0..random.below(most_calls + 1) {
        let call = random_call(random, &want, filling);
        calls.push(call);
        seen.count(&want, call);
        let before = black_box(held.clone());
        let agree = agrees(&mut held, &mut want, call);
        let right = agree && same_plan(&held, &want) && leaves(&held, &before, call);
        assert!(right, "file {file:02x?}, the last of {calls:?}: {held:?}");
    }
    assert!(same_when_reopened(&held), "file {file:02x?}, after {calls:?}");
}

#[test]
fn histories() {
    let total = cases("PAMZOLIT_HISTORIES", 20_000);
    let mut random = Random::new(3);
    let mut seen = Seen::default();
    for _ in 0..total {
        one_history(&mut random, 7, 12, 24, &mut seen);
    }
    // too short to fill a stack
    seen.must_have(&[0, 10, 11, 14, 15]);
    assert!(seen.calls > total);
}

#[test]
fn long_histories() {
    let mut random = Random::new(4);
    let mut seen = Seen::default();
    for _ in 0..cases("PAMZOLIT_HISTORIES", 20_000) / 200 {
        one_history(&mut random, 5, 8, 400, &mut seen);
    }
    seen.must_have(&[0, 10, 11, 12, 14, 15]);
}

#[test]
fn large_histories() {
    let mut random = Random::new(5);
    let mut seen = Seen::default();
    for _ in 0..cases("PAMZOLIT_HISTORIES", 20_000) / 400 {
        one_history(&mut random, 40, 90, 12, &mut seen);
    }
    assert!(seen.previews[0] > 10, "{seen:?}");
}

#[test]
fn a_full_stack() {
    let mut held = pamzolit::Plan::open(&[2, 1, 0, 1, 3]).unwrap();
    let first = held.clone();
    let shown = |held: &pamzolit::Plan| held.preview(Link(0), 64, Node(0), Node(1)).map(|p| p.pair.weight);
    for capacity in 0..64 {
        assert_eq!(shown(&held), Ok(64));
        assert!(held.change(Link(0), capacity).is_ok());
    }
    let full = held.clone();
    assert_eq!(held.change(Link(0), 64), Err(Refusal::StackFull));
    assert_eq!(shown(&held), Err(Refusal::StackFull));
    assert!(held == full && held.changes().len() == 64);
    for capacity in (0..64).rev() {
        assert_eq!(held.pair(Node(0), Node(1)).map(|p| p.weight), Ok(capacity));
        assert!(held.undo().is_ok());
        assert_eq!(shown(&held), Ok(64));
    }
    assert_eq!(held.undo(), Err(Refusal::NothingToUndo));
    assert!(held == first);
}
