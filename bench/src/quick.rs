//! The same answers with fewer steps: the yardstick for speed. The reference's definitions are
//! replaced where a shorter look is enough; the self-check holds both against each other.

use crate::reference::{
    best_chain, open, print_chain, print_refusal, refuse_if, score_is_out_of_range, Nodes, Pair,
    Seed, Session, Tree,
};

pub fn report(input: &[u8]) -> Vec<u8> {
    match open(input, check_seed) {
        Ok(session) => print_chain(best_chain(&session, chainable)),
        Err(refusal) => print_refusal(&refusal),
    }
}

pub fn check_seed(q: &Tree, t: &Tree, seed: &mut Seed, pairs: &[Pair]) -> Result<(), u8> {
    let (first, last) = (pairs[0], pairs[pairs.len() - 1]);
    refuse_if(score_is_out_of_range(seed.score), 11)?;
    let (missing, unlike, falling) = faults(q, t, pairs);
    refuse_if(missing, 15)?;
    refuse_if(unlike, 25)?;
    refuse_if(falling, 16)?;
    refuse_if(ancestry_differs(q, t, pairs), 17)?;
    // The numbers rise, so the first one is the only one to look at.
    refuse_if(q.left(last.q) > first.q || t.left(last.t) > first.t, 18)?;
    let (span_q, bare_q) = span(q, pairs, |pair| pair.q);
    let (span_t, bare_t) = span(t, pairs, |pair| pair.t);
    (seed.span_q, seed.span_t) = (span_q, span_t);
    refuse_if(bare_q || bare_t, 19)
}

/// Whether a node is missing, two are unlike, or the numbers do not rise, all in one pass. A number that
/// is no node has a kind too, but then the first of the three comes before.
fn faults(q: &Tree, t: &Tree, pairs: &[Pair]) -> (bool, bool, bool) {
    let (mut missing, mut unlike, mut falling) = (false, false, false);
    let (mut q_from, mut t_from) = (0, 0);
    for pair in pairs {
        let (q_node, t_node) = (pair.q as usize, pair.t as usize);
        missing |= q_node >= q.count || t_node >= t.count;
        unlike |= q.kind[q_node] != t.kind[t_node];
        falling |= q_node < q_from || t_node < t_from;
        (q_from, t_from) = (q_node + 1, t_node + 1);
    }
    (missing, unlike, falling)
}

/// The pairs below a pair are those just before it, so in both trees they must begin at one place.
/// A pair below is passed with those below it, so that each is looked at once.
fn ancestry_differs(q: &Tree, t: &Tree, pairs: &[Pair]) -> bool {
    let mut starts = [0; 256];
    for (at, pair) in pairs.iter().enumerate() {
        let (left_q, left_t) = (q.left(pair.q), t.left(pair.t));
        let mut start = at;
        while start > 0 && pairs[start - 1].q >= left_q {
            start = starts[start - 1];
        }
        if start > 0 && pairs[start - 1].t >= left_t || start < at && pairs[start].t < left_t {
            return true;
        }
        starts[at] = start;
    }
    false
}

/// The span, and whether one of its border nodes is unpaired.
fn span(tree: &Tree, pairs: &[Pair], node: impl Fn(&Pair) -> u8) -> (Nodes, bool) {
    let mut span = Nodes::default();
    let mut paired = Nodes::default();
    let mut kids_inside = [0; 256];
    span.add(node(&pairs[pairs.len() - 1]));
    for pair in pairs {
        let mut at = node(pair);
        paired.add(at);
        while !span.has(at) {
            span.add(at);
            at = tree.parent[at as usize];
            kids_inside[at as usize] += 1;
        }
    }
    // An unpaired node was walked through, so it is no leaf.
    let bare = |at: usize| kids_inside[at] < tree.kids[at];
    (span, any_node(&span.without(&paired), bare))
}

fn any_node(nodes: &Nodes, test: impl Fn(usize) -> bool) -> bool {
    (0..4).any(|word| {
        let mut rest = nodes.0[word];
        while rest != 0 {
            if test(64 * word + rest.trailing_zeros() as usize) {
                return true;
            }
            rest &= rest - 1;
        }
        false
    })
}

/// Chainable, for an x whose last q is not above y's: its last pair speaks for the whole seed.
fn chainable(session: &Session, x: usize, y: usize) -> bool {
    let (q, t, upper) = (&session.q, &session.t, &session.seeds[y]);
    let (low, high) = (session.last(x), session.last(y));
    if low.q < q.left(high.q) {
        return low.t < t.left(high.t);
    }
    t.above(high.t, low.t)
        && !upper.span_q.has(low.q)
        && !upper.span_t.has(low.t)
        && same_gap(q, t, session.pairs(y), low)
}

/// Whether a pair outside the spans comes after the same pairs and below the same pairs in both
/// trees; the nearest pair above it decides about all pairs above it.
fn same_gap(q: &Tree, t: &Tree, pairs: &[Pair], low: Pair) -> bool {
    let after = pairs.partition_point(|pair| pair.q < low.q);
    if after > 0 && pairs[after - 1].t > low.t {
        return false;
    }
    for pair in &pairs[after..] {
        if pair.t < low.t {
            return false;
        }
        let (in_q, in_t) = (q.left(pair.q) <= low.q, t.left(pair.t) <= low.t);
        if in_q || in_t {
            return in_q && in_t;
        }
    }
    false
}
