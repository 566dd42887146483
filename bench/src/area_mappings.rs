//! All mappings on short texts, of which many are seeds.

use crate::fixed::small_structures;
use crate::inputs::{join, must_read, plain_deck};
use crate::reference::{agree, Pair, Tree};

/// Every mapping of like nodes on two trees that begins with `list` and goes on with nodes from `next` on.
fn mappings(q: &Tree, t: &Tree, next: Pair, list: &mut Vec<Pair>, visit: &mut dyn FnMut(&[Pair])) {
    for q_node in next.q..q.count as u8 {
        for t_node in next.t..t.count as u8 {
            let pair = Pair {
                q: q_node,
                t: t_node,
            };
            let like = q.kind[q_node as usize] == t.kind[t_node as usize];
            if like && list.iter().all(|other| agree(q, t, other, &pair)) {
                list.push(pair);
                visit(list);
                let after = Pair {
                    q: q_node + 1,
                    t: t_node + 1,
                };
                mappings(q, t, after, list, visit);
                list.pop();
            }
        }
    }
}

/// Every mapping of like nodes as a seed on every two structures of up to so many bytes.
pub fn small_mappings(longest: usize, visit: &mut dyn FnMut(&[u8])) {
    let texts = small_structures(longest);
    for q in &texts {
        for t in &texts {
            let first = Pair { q: 0, t: 0 };
            mappings(
                &must_read(q),
                &must_read(t),
                first,
                &mut Vec::new(),
                &mut |list| visit(&join(q, t, &plain_deck(&[(1, list.to_vec())]))),
            );
        }
    }
}
