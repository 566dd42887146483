//! The examples of document 02, c: like maps to like.

use crate::examples::{input, on_a_and_b, one, Row, Seed, A, B};
use crate::reference::{read_tree, NodeKind};

/// Inputs with their lines.
pub fn examples() -> Vec<Row> {
    [
        like_maps_to_like(),
        unlike_among_other_grounds(),
        unlike_in_a_deck(),
    ]
    .concat()
}

/// Every kind of node against every kind; the kind of bracket plays no part.
fn like_maps_to_like() -> Vec<Row> {
    let (like, unlike) = ("score 0.01\nchain 1\n", "refused 25 seed 1\n");
    let joined = |q: &[u8], t: &[u8], pairs: &[(u8, u8)]| input(q, t, &[(1, pairs)]);
    vec![
        (joined(b".", b"~", &[(0, 0)]), like),
        (joined(b"()", b"<>", &[(0, 0)]), like),
        (joined(b"()", b"[.]", &[(0, 1)]), like),
        (joined(b"{.}", b"[_]", &[(0, 0), (1, 1), (2, 2)]), like),
        (joined(b"()", b".", &[(1, 1)]), like),
        (joined(b"()", b"", &[(1, 0)]), like),
        // A bracket pair around nothing is a leaf as the unpaired base is.
        (joined(b"()", b".", &[(0, 0)]), unlike),
        (joined(b".", b"()", &[(0, 0)]), unlike),
        (joined(b".", b"(.)", &[(0, 1)]), unlike),
        (joined(b"(.)", b".", &[(1, 0)]), unlike),
        // A root against an unpaired base, a leaf and an inner bracket pair.
        (joined(b"", b".", &[(0, 0)]), unlike),
        (joined(b".", b"", &[(0, 0)]), unlike),
        (joined(b"", b"()", &[(0, 0)]), unlike),
        (joined(b"()", b"", &[(0, 0)]), unlike),
        (joined(b"(.)", b"((.))", &[(2, 2)]), unlike),
        (joined(b"((.))", b"(.)", &[(2, 2)]), unlike),
    ]
}

/// 25 is asked of all pairs, after 15 of all pairs and before 16 of any.
fn unlike_among_other_grounds() -> Vec<Row> {
    let unlike = "refused 25 seed 1\n";
    vec![
        (one(1_000_001, &[(0, 1)]), "refused 11 seed 1\n"),
        (one(1, &[(0, 1), (6, 4)]), "refused 15 seed 1\n"),
        (one(1, &[(0, 1), (5, 5)]), "refused 15 seed 1\n"),
        (one(1, &[(6, 1), (0, 1)]), "refused 15 seed 1\n"),
        (one(1, &[(0, 0), (0, 0)]), "refused 16 seed 1\n"),
        // With 16, before and after the unlike pair; with 17; with 18; and alone, at the last pair.
        (one(1, &[(0, 0), (0, 0), (4, 3)]), unlike),
        (one(1, &[(4, 3), (0, 0), (0, 0)]), unlike),
        (one(1, &[(0, 0), (2, 1), (4, 3)]), unlike),
        (one(1, &[(0, 0), (4, 3)]), unlike),
        (one(1, &[(4, 0), (5, 1)]), unlike),
    ]
}

/// One seed at a time.
fn unlike_in_a_deck() -> Vec<Row> {
    let (like, unlike): (Seed, Seed) = ((1, &[(0, 0)]), (1, &[(0, 1)]));
    let (far, missing): (Seed, Seed) = ((1_000_001, &[(0, 0)]), (1, &[(6, 0)]));
    let uncovered: Seed = (1, &[(1, 0), (5, 4)]);
    vec![
        (on_a_and_b(&[like, unlike]), "refused 25 seed 2\n"),
        (on_a_and_b(&[like, like, unlike]), "refused 25 seed 3\n"),
        (on_a_and_b(&[far, unlike]), "refused 11 seed 1\n"),
        (on_a_and_b(&[unlike, far]), "refused 25 seed 1\n"),
        (on_a_and_b(&[missing, unlike]), "refused 15 seed 1\n"),
        (on_a_and_b(&[unlike, missing]), "refused 25 seed 1\n"),
        (on_a_and_b(&[uncovered, unlike]), "refused 19 seed 1\n"),
        (on_a_and_b(&[unlike, uncovered]), "refused 25 seed 1\n"),
    ]
}

/// The kinds of the nodes of A and B, of brackets around nothing, and of an empty text.
pub fn are_right() -> bool {
    use NodeKind::{BasePair, Root, Unpaired};
    let kinds: [(&[u8], &[NodeKind]); 4] = [
        (A, &[Unpaired, Unpaired, BasePair, BasePair, Unpaired, Root]),
        (B, &[Unpaired, BasePair, Unpaired, BasePair, Root]),
        (b"<>{[]~}", &[BasePair, BasePair, Unpaired, BasePair, Root]),
        (b"", &[Root]),
    ];
    kinds
        .iter()
        .all(|(text, kinds)| read_tree(text).is_ok_and(|tree| tree.kind[..tree.count] == **kinds))
}
