//! The rules of the walk, refusals 4 to 6, and of what it does not meet, refusal 7.
//!
//! The nodes are first unfolded into the steps of a depth-first walk, faults or none; then each rule looks at each step
//! by itself.

use crate::{grammar, Cause, Order, Violation};
use sheet::Node;

/// One step of the walk: a kid place, with the number of nodes the walk has met before it. The first step is Root's,
/// which has no parent.
#[derive(Clone, Copy)]
struct Step {
    parent: Option<(usize, usize)>,
    depth: usize,
    kid: Option<usize>,
    met: usize,
}

impl Step {
    /// As long as no rule is broken the highest node met is the number of nodes met less one, so the kid wanted next
    /// has that number.
    fn in_order(&self) -> Option<usize> {
        self.kid.filter(|&kid| kid == self.met)
    }
}

pub fn violations(nodes: &[Node]) -> Vec<Violation> {
    let steps = unfold(nodes);
    let mut violations = Vec::new();
    for (number, step) in steps.iter().enumerate() {
        let order = |check| Order::Step { step: number, check };
        if let Some((parent, index)) = step.parent {
            violations.extend(kid_fault(nodes, step, parent, index).map(|cause| Violation::new(order(5), parent, cause)));
            let too_deep = step.kid.is_some() && step.depth > sheet::MAX_DEPTH;
            violations.extend(too_deep.then(|| Violation::new(order(6), parent, Cause::Depth)));
        }
        // What is met at a step comes after the step's own faults: the kid's count is the first thing inside the kid.
        let counted = step.in_order().and_then(|node| Some((node, count_fault(nodes.get(node)?)?)));
        violations.extend(counted.map(|(node, cause)| Violation::new(order(7), node, cause)));
    }
    violations.extend(unmet(nodes, &steps));
    violations
}

/// The steps of the walk. It goes into a kid only where the kid has the number wanted, so that no node is gone into
/// twice: all that lies behind another number comes after a fault.
fn unfold(nodes: &[Node]) -> Vec<Step> {
    let mut steps = Vec::new();
    let mut met = 0;
    let mut ahead = vec![Step { parent: None, depth: 1, kid: Some(0), met }];
    while let Some(step) = ahead.pop() {
        let step = Step { met, ..step };
        steps.push(step);
        met += usize::from(step.kid.is_some());
        if let Some((number, node)) = step.in_order().and_then(|number| Some((number, nodes.get(number)?))) {
            let kids = node.kids.iter().enumerate().rev();
            ahead.extend(kids.map(|(index, &kid)| Step {
                parent: Some((number, index)),
                depth: step.depth + 1,
                kid: kid.map(|kid| kid as usize),
                met,
            }));
        }
    }
    steps
}

fn count_fault(node: &Node) -> Option<Cause> {
    let form = grammar::form(node.kind);
    if node.kids.len() < form.counted.len() {
        Some(Cause::TooFewKids(node.kind))
    } else if node.kids.len() > form.most() {
        Some(Cause::TooManyKids(node.kind))
    } else {
        None
    }
}

/// What is wrong with a kid in its place. A kid beyond the last place has none; that its parent has too many was said
/// before.
fn kid_fault(nodes: &[Node], step: &Step, parent: usize, index: usize) -> Option<Cause> {
    let form = grammar::form(nodes.get(parent)?.kind);
    let place = form.place(index)?;
    match step.kid {
        None => form.is_item(index).then_some(Cause::AbsentItem(place)),
        Some(_) if step.in_order().is_none() => Some(Cause::KidOrder),
        Some(kid) => (!place.takes().contains(&nodes.get(kid)?.kind)).then_some(Cause::KidKind(place)),
    }
}

fn unmet(nodes: &[Node], steps: &[Step]) -> Vec<Violation> {
    let mut met = vec![false; nodes.len()];
    for node in steps.iter().filter_map(Step::in_order) {
        if let Some(met) = met.get_mut(node) {
            *met = true;
        }
    }
    let unmet = met.iter().enumerate().filter(|(_, &met)| !met);
    unmet.map(|(node, _)| Violation::new(Order::Unmet { node }, node, Cause::Unmet)).collect()
}
