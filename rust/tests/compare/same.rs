//! Whether what a plan holds is what the model holds, and replies of pairs and previews as the model gives them.
use crate::model;
use pamzolit::{Change, Link, LinkState, Node, Pair, Preview, Refusal, Side, Step, TreeEdge};

fn links(plan: &model::Plan) -> Vec<LinkState> {
    let state = |(k, &(a, b, capacity))| LinkState { link: Link(k), a: Node(a), b: Node(b), capacity };
    plan.net.links.iter().enumerate().map(state).collect()
}

fn tree(plan: &model::Plan) -> Vec<TreeEdge> {
    let edge = |i| TreeEdge { node: Node(i), parent: Node(plan.tree.parent[i]), weight: plan.tree.weight[i] as u32 };
    (1..plan.net.nodes).map(edge).collect()
}

fn steps(plan: &model::Plan) -> Vec<Step> {
    let step = |i: usize| {
        let (pivot, side, value) = plan.tree.steps[i];
        Step { node: Node(i), pivot: Node(pivot), side: Side::from_bits(side), value: value as u32 }
    };
    (1..plan.net.nodes).map(step).collect()
}

fn changes(plan: &model::Plan) -> Vec<Change> {
    plan.stack.iter().map(|&(k, before)| Change { link: Link(k), before }).collect()
}

fn lightest(plan: &model::Plan) -> Option<TreeEdge> {
    let (node, weight) = plan.tree.lightest();
    let edge = TreeEdge { node: Node(node), parent: Node(plan.tree.parent[node]), weight: weight as u32 };
    (plan.net.nodes > 1).then_some(edge)
}

/// Network, tree, steps, stack and lightest edge.
pub fn same_plan(held: &pamzolit::Plan, want: &model::Plan) -> bool {
    held.node_count() == want.net.nodes
        && held.links().eq(links(want))
        && held.tree().eq(tree(want))
        && held.steps().eq(steps(want))
        && held.changes().eq(changes(want))
        && held.lightest() == lightest(want)
}

/// The pair; or the number of a refusal.
pub fn pair_reply(got: Result<Pair, Refusal>) -> Result<model::Pair, u32> {
    got.map(|p| (p.weight as u64, p.node.0, p.side.bits(), p.size as u32)).map_err(|e| e.number())
}

/// The pair, and the count of steps not kept; or the number of a refusal.
pub fn preview_reply(got: Result<Preview, Refusal>) -> Result<(model::Pair, u32), u32> {
    let count = got.map_or(0, |p| p.count);
    pair_reply(got.map(|p| p.pair)).map(|pair| (pair, count))
}
