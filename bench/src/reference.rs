//! The printed lines, written from documents 01 and 02 alone, by their definitions: spans are sets of
//! nodes, and two seeds are chainable if the spans are apart and all their pairs together are a mapping.

use std::io::Write;

const INPUT_LIMIT: usize = 8192;
const TEXT_LIMIT: usize = 255;
const SEED_LIMIT: usize = 64;
const PAIR_LIMIT: usize = 1024;
const SCORE_LIMIT: i32 = 1_000_000;

/// A set of nodes of one tree.
#[derive(Clone, Copy, Default)]
pub struct Nodes(pub [u64; 4]);

impl Nodes {
    pub fn has(&self, node: u8) -> bool {
        self.0[node as usize / 64] >> (node % 64) & 1 == 1
    }

    pub fn add(&mut self, node: u8) {
        self.0[node as usize / 64] |= 1 << (node % 64);
    }

    pub fn meets(&self, other: &Nodes) -> bool {
        (0..4).any(|word| self.0[word] & other.0[word] != 0)
    }

    pub fn without(&self, other: &Nodes) -> Nodes {
        Nodes(std::array::from_fn(|word| self.0[word] & !other.0[word]))
    }

    pub fn is_empty(&self) -> bool {
        self.0 == [0; 4]
    }
}

/// What a node stands for; only like nodes map to one another (document 02, c).
#[derive(Clone, Copy, PartialEq, Eq, Debug)]
pub enum NodeKind {
    Unpaired,
    BasePair,
    Root,
}

/// A structure; its nodes are numbered in postfix order and the added root comes last.
pub struct Tree {
    pub count: usize,
    pub leftmost: [u8; 256],
    pub parent: [u8; 256],
    pub kids: [u8; 256],
    pub kind: [NodeKind; 256],
}

impl Tree {
    fn new() -> Tree {
        Tree {
            count: 0,
            leftmost: [0; 256],
            parent: [0; 256],
            kids: [0; 256],
            kind: [NodeKind::Unpaired; 256],
        }
    }

    /// The next node takes everything from `leftmost` on as its subtree.
    fn close(&mut self, leftmost: usize, kind: NodeKind) {
        let node = self.count;
        let mut kid = node;
        while kid > leftmost {
            kid -= 1;
            self.parent[kid] = node as u8;
            self.kids[node] += 1;
            kid = self.leftmost[kid] as usize;
        }
        self.leftmost[node] = leftmost as u8;
        // Told by the text: a leaf may be an unpaired base, a bracket pair around nothing or the root.
        self.kind[node] = kind;
        self.count += 1;
    }

    pub fn left(&self, node: u8) -> u8 {
        self.leftmost[node as usize]
    }

    /// Whether the one node is a proper ancestor of the other.
    pub fn above(&self, upper: u8, lower: u8) -> bool {
        self.left(upper) <= lower && lower < upper
    }
}

#[derive(Clone, Copy, PartialEq, Eq, Debug)]
pub struct Pair {
    pub q: u8,
    pub t: u8,
}

/// A seed's score, its part of the session's pairs, and its spans.
pub struct Seed {
    pub score: i32,
    from: usize,
    to: usize,
    pub span_q: Nodes,
    pub span_t: Nodes,
}

/// An accepted input.
pub struct Session {
    pub q: Tree,
    pub t: Tree,
    pub seeds: Vec<Seed>,
    pairs: Vec<Pair>,
}

impl Session {
    pub fn pairs(&self, seed: usize) -> &[Pair] {
        &self.pairs[self.seeds[seed].from..self.seeds[seed].to]
    }

    pub fn last(&self, seed: usize) -> Pair {
        self.pairs[self.seeds[seed].to - 1]
    }
}

pub enum Place {
    Nothing,
    Q(usize),
    T(usize),
    Seed(usize),
}

pub struct Refusal {
    pub ground: u8,
    place: Place,
}

/// A chain, as a total and a mask in which bit 0 is seed 1.
#[derive(Clone, Copy, PartialEq, Eq, Debug)]
pub struct Chain {
    pub total: i64,
    pub mask: u64,
}

/// The printed lines for any input.
pub fn report(input: &[u8]) -> Vec<u8> {
    match open(input, check_seed) {
        Ok(session) => print_chain(best_chain(&session, chainable)),
        Err(refusal) => print_refusal(&refusal),
    }
}

/// Reads an input; `check` judges one seed by grounds 11 to 19 and 25 and sets its spans.
pub fn open(
    input: &[u8],
    check: impl Fn(&Tree, &Tree, &mut Seed, &[Pair]) -> Result<(), u8>,
) -> Result<Session, Refusal> {
    let [q_text, t_text, deck] = parts_of(input);
    let q = read_tree(q_text).map_err(|(ground, at)| Refusal {
        ground,
        place: Place::Q(at),
    })?;
    let t = read_tree(t_text).map_err(|(ground, at)| Refusal {
        ground,
        place: Place::T(at),
    })?;
    let (mut seeds, pairs) = read_deck(deck)?;
    for (index, seed) in seeds.iter_mut().enumerate() {
        let own = &pairs[seed.from..seed.to];
        check(&q, &t, seed, own).map_err(|ground| at_seed(ground, index + 1))?;
    }
    Ok(Session { q, t, seeds, pairs })
}

/// Q, T and the deck of an input.
pub fn parts_of(input: &[u8]) -> [&[u8]; 3] {
    let (q, rest) = cut_line(&input[..input.len().min(INPUT_LIMIT)]);
    let (t, deck) = cut_line(rest);
    [q, t, deck]
}

/// The part before the first line feed and the part after it; without one the rest is empty.
fn cut_line(bytes: &[u8]) -> (&[u8], &[u8]) {
    match bytes.iter().position(|&byte| byte == b'\n') {
        Some(at) => (&bytes[..at], &bytes[at + 1..]),
        None => (bytes, &[]),
    }
}

/// The four kinds of brackets.
#[derive(Clone, Copy, PartialEq, Eq)]
enum Kind {
    Angle,
    Round,
    Square,
    Curly,
}

/// What one byte of a text means (document 02, b).
#[derive(Clone, Copy, PartialEq, Eq)]
enum Meaning {
    Opening(Kind),
    Closing(Kind),
    Unpaired,
    Refused,
}

const fn meaning(byte: u8) -> Meaning {
    match byte {
        b'<' => Meaning::Opening(Kind::Angle),
        b'(' => Meaning::Opening(Kind::Round),
        b'[' => Meaning::Opening(Kind::Square),
        b'{' => Meaning::Opening(Kind::Curly),
        b'>' => Meaning::Closing(Kind::Angle),
        b')' => Meaning::Closing(Kind::Round),
        b']' => Meaning::Closing(Kind::Square),
        b'}' => Meaning::Closing(Kind::Curly),
        b'.' | b',' | b':' | b'_' | b'-' | b'~' => Meaning::Unpaired,
        _ => Meaning::Refused,
    }
}

/// The meanings of all bytes, since looking one up takes less time than telling it.
static MEANINGS: [Meaning; 256] = {
    let mut meanings = [Meaning::Refused; 256];
    let mut byte = 0;
    while byte < 256 {
        meanings[byte] = meaning(byte as u8);
        byte += 1;
    }
    meanings
};

/// A text as a tree, or the ground and the byte position.
pub fn read_tree(text: &[u8]) -> Result<Tree, (u8, usize)> {
    if text.len() > TEXT_LIMIT {
        return Err((1, 0));
    }
    // For each open bracket its byte position, the first node inside and its kind.
    let mut open = [(0, 0, Kind::Round); TEXT_LIMIT];
    let mut depth = 0;
    // Grounds 3 and 4 come before 24, so the first closing bracket of another kind waits for the end.
    let mut other_kind = None;
    let mut tree = Tree::new();
    for (at, &byte) in text.iter().enumerate() {
        let meaning = MEANINGS[byte as usize];
        // One test after another: a jump by the meaning is foretold badly where texts vary.
        if meaning == Meaning::Unpaired {
            tree.close(tree.count, NodeKind::Unpaired);
        } else if let Meaning::Opening(kind) = meaning {
            open[depth] = (at as u8, tree.count as u8, kind);
            depth += 1;
        } else if let (Meaning::Closing(kind), true) = (meaning, depth > 0) {
            depth -= 1;
            let (_, first, partner) = open[depth];
            if kind != partner {
                other_kind = other_kind.or(Some(at));
            }
            tree.close(first as usize, NodeKind::BasePair);
        } else {
            // A refused byte further on comes before a closing bracket that closes nothing.
            return Err(refused_byte(text).map_or((3, at), |at| (2, at)));
        }
    }
    if depth > 0 {
        return Err((4, open[0].0 as usize));
    }
    tree.close(0, NodeKind::Root);
    match other_kind {
        None => Ok(tree),
        Some(at) => Err((24, at)),
    }
}

fn refused_byte(text: &[u8]) -> Option<usize> {
    text.iter()
        .position(|&byte| MEANINGS[byte as usize] == Meaning::Refused)
}

fn nowhere(ground: u8) -> Refusal {
    Refusal {
        ground,
        place: Place::Nothing,
    }
}

fn at_seed(ground: u8, number: usize) -> Refusal {
    Refusal {
        ground,
        place: Place::Seed(number),
    }
}

fn two_bytes(bytes: &[u8]) -> usize {
    u16::from_be_bytes([bytes[0], bytes[1]]) as usize
}

/// The deck's seeds with the pairs of each in walking order.
fn read_deck(deck: &[u8]) -> Result<(Vec<Seed>, Vec<Pair>), Refusal> {
    if deck.len() < 4 {
        return Err(nowhere(5));
    }
    let (seed_count, pair_count) = (deck[0] as usize, two_bytes(&deck[2..]));
    let length = 4 + 6 * seed_count + 4 * pair_count;
    if seed_count > SEED_LIMIT || deck[1] != 0 || pair_count > PAIR_LIMIT || deck.len() != length {
        return Err(nowhere(5));
    }
    let (heads, records) = deck[4..].split_at(6 * seed_count);
    let mut seeds = Vec::with_capacity(seed_count);
    let mut pairs = Vec::with_capacity(pair_count);
    let mut reached = [false; PAIR_LIMIT + 1];
    for (index, head) in heads.chunks_exact(6).enumerate() {
        let from = pairs.len();
        walk(two_bytes(&head[4..]), records, &mut reached, &mut pairs)
            .map_err(|ground| at_seed(ground, index + 1))?;
        let score = i32::from_be_bytes([head[0], head[1], head[2], head[3]]);
        let (span_q, span_t) = (Nodes::default(), Nodes::default());
        seeds.push(Seed {
            score,
            from,
            to: pairs.len(),
            span_q,
            span_t,
        });
    }
    // No record is walked twice, so the number of pairs tells whether one is left over.
    if pairs.len() < pair_count {
        return Err(nowhere(8));
    }
    Ok((seeds, pairs))
}

/// Follows one seed's records, which are numbered from 1.
fn walk(
    first: usize,
    records: &[u8],
    reached: &mut [bool],
    pairs: &mut Vec<Pair>,
) -> Result<(), u8> {
    if first == 0 {
        return Err(6);
    }
    let mut at = first;
    while at != 0 {
        let record = records.get(4 * (at - 1)..4 * at).ok_or(6)?;
        if std::mem::replace(&mut reached[at], true) {
            return Err(7);
        }
        pairs.push(Pair {
            q: record[0],
            t: record[1],
        });
        at = two_bytes(&record[2..]);
    }
    Ok(())
}

pub fn refuse_if(met: bool, ground: u8) -> Result<(), u8> {
    if met {
        Err(ground)
    } else {
        Ok(())
    }
}

pub fn score_is_out_of_range(score: i32) -> bool {
    !(-SCORE_LIMIT..=SCORE_LIMIT).contains(&score)
}

pub fn some_node_is_missing(q: &Tree, t: &Tree, pairs: &[Pair]) -> bool {
    pairs
        .iter()
        .any(|pair| pair.q as usize >= q.count || pair.t as usize >= t.count)
}

/// Both nodes of every pair must be in their trees.
fn some_nodes_are_unlike(q: &Tree, t: &Tree, pairs: &[Pair]) -> bool {
    pairs
        .iter()
        .any(|pair| q.kind[pair.q as usize] != t.kind[pair.t as usize])
}

fn not_rising(pairs: &[Pair]) -> bool {
    pairs
        .windows(2)
        .any(|two| two[0].q >= two[1].q || two[0].t >= two[1].t)
}

/// Grounds 11 to 19 and 25 for one seed, by the definitions; the seed gets its spans.
pub fn check_seed(q: &Tree, t: &Tree, seed: &mut Seed, pairs: &[Pair]) -> Result<(), u8> {
    let (last, others) = pairs.split_last().expect("a walk has at least one record");
    refuse_if(score_is_out_of_range(seed.score), 11)?;
    refuse_if(some_node_is_missing(q, t, pairs), 15)?;
    refuse_if(some_nodes_are_unlike(q, t, pairs), 25)?;
    refuse_if(not_rising(pairs), 16)?;
    refuse_if(
        pairs
            .iter()
            .any(|a| pairs.iter().any(|b| !same_ancestry(q, t, a, b))),
        17,
    )?;
    refuse_if(
        others
            .iter()
            .any(|a| !q.above(last.q, a.q) || !t.above(last.t, a.t)),
        18,
    )?;
    seed.span_q = span(q, last.q, pairs.iter().map(|pair| pair.q));
    seed.span_t = span(t, last.t, pairs.iter().map(|pair| pair.t));
    let (mut paired_q, mut paired_t) = (Nodes::default(), Nodes::default());
    pairs.iter().for_each(|pair| paired_q.add(pair.q));
    pairs.iter().for_each(|pair| paired_t.add(pair.t));
    let bare_q = border(q, last.q, &seed.span_q).without(&paired_q);
    let bare_t = border(t, last.t, &seed.span_t).without(&paired_t);
    refuse_if(!bare_q.is_empty() || !bare_t.is_empty(), 19)
}

fn same_ancestry(q: &Tree, t: &Tree, a: &Pair, b: &Pair) -> bool {
    q.above(a.q, b.q) == t.above(a.t, b.t) && q.above(b.q, a.q) == t.above(b.t, a.t)
}

/// Whether two pairs may stand together in a mapping.
pub fn agree(q: &Tree, t: &Tree, a: &Pair, b: &Pair) -> bool {
    (a.q == b.q) == (a.t == b.t) && (a.q < b.q) == (a.t < b.t) && same_ancestry(q, t, a, b)
}

/// The nodes and all nodes on the paths from them up to the last one.
fn span(tree: &Tree, last: u8, nodes: impl Iterator<Item = u8>) -> Nodes {
    let mut span = Nodes::default();
    span.add(last);
    for node in nodes {
        let mut at = node;
        while !span.has(at) {
            span.add(at);
            at = tree.parent[at as usize];
        }
    }
    span
}

/// The span's nodes that are leaves of the tree or have a child outside.
fn border(tree: &Tree, last: u8, span: &Nodes) -> Nodes {
    let mut border = Nodes::default();
    for node in tree.left(last)..=last {
        let parent = tree.parent[node as usize];
        if span.has(node) && tree.left(node) == node {
            border.add(node);
        } else if !span.has(node) && span.has(parent) {
            border.add(parent);
        }
    }
    border
}

/// Whether two seeds are chainable, by the definition.
pub fn chainable(session: &Session, x: usize, y: usize) -> bool {
    let (a, b) = (&session.seeds[x], &session.seeds[y]);
    let apart = !a.span_q.meets(&b.span_q) && !a.span_t.meets(&b.span_t);
    let (xs, ys) = (session.pairs(x), session.pairs(y));
    apart
        && xs
            .iter()
            .all(|a| ys.iter().all(|b| agree(&session.q, &session.t, a, b)))
}

/// A seed as one number: the totals weigh first, then the smaller mask, and both add up.
/// Masks of disjoint sets stay below 2^64, so they never outweigh one more in the total.
fn weight(seed: usize, score: i32) -> i128 {
    ((score as i128) << 64) - (1 << seed)
}

fn chain_of_weight(weight: i128) -> Chain {
    let mask = weight.wrapping_neg() as u64;
    Chain {
        total: ((weight + mask as i128) >> 64) as i64,
        mask,
    }
}

fn members(mut mask: u64) -> impl Iterator<Item = usize> {
    std::iter::from_fn(move || {
        let next = mask.trailing_zeros() as usize;
        mask &= mask.wrapping_sub(1);
        (next < 64).then_some(next)
    })
}

/// The best chain by going from the lower seeds to the upper ones.
///
/// Why this is exact. Let x and y be chainable with last pairs (a, b) and (c, d), a < c. Spans hold
/// every path up to the last node, so the subtree of a lies wholly outside y's span. Either a comes
/// before the subtree of c (x is left of y), or a is below c (x is under y). All of x's pairs lie
/// below or at (a, b), so they stand to y's pairs as (a, b) does. Hence what is under x is under
/// whatever x is under, and left of whatever x is left of; left of left is left. So a set of seeds
/// is a chain exactly if its topmost seeds are left of one another in a row and the rest of it
/// splits into chains under each of them.
pub fn best_chain(session: &Session, chainable: impl Fn(&Session, usize, usize) -> bool) -> Chain {
    let count = session.seeds.len();
    let mut order = [0; SEED_LIMIT];
    (0..count).for_each(|seed| order[seed] = seed);
    let order = &mut order[..count];
    order.sort_unstable_by_key(|&seed| session.last(seed).q);

    let mut value = [0; SEED_LIMIT];
    let mut sums = [0; SEED_LIMIT];
    let mut left = [0; SEED_LIMIT];
    // A seed that is worth no more than the empty chain is left out everywhere.
    let mut useful = 0;
    for y in 0..count {
        let first = session.q.left(session.last(order[y]).q);
        let mut under = 0;
        for x in 0..y {
            if chainable(session, order[x], order[y]) {
                let side = if session.last(order[x]).q < first {
                    &mut left[y]
                } else {
                    &mut under
                };
                *side |= 1 << x;
            }
        }
        let own = weight(order[y], session.seeds[order[y]].score);
        value[y] = own + best_row(under & useful, &left, &value, &mut sums);
        if value[y] > 0 {
            useful |= 1 << y;
        }
    }
    chain_of_weight(best_row(useful, &left, &value, &mut sums))
}

/// The best sum over seeds of `row` that are left of one another, or 0. The sums of former rows may
/// stay, as only those of this row are read.
fn best_row(row: u64, left: &[u64], value: &[i128], sums: &mut [i128]) -> i128 {
    let mut best = 0;
    for k in members(row) {
        let before = members(row & left[k]).map(|j| sums[j]).max().unwrap_or(0);
        sums[k] = before + value[k];
        best = best.max(sums[k]);
    }
    best
}

/// The best chain by trying every set of seeds, and how many chains have the greatest total.
pub fn best_by_trying(session: &Session) -> (Chain, usize) {
    let count = session.seeds.len();
    let friends: Vec<u64> = (0..count)
        .map(|x| {
            (0..count)
                .filter(|&y| x == y || chainable(session, x, y))
                .fold(0, |m, y| m | 1 << y)
        })
        .collect();
    let mut best = Chain { total: 0, mask: 0 };
    let mut ties = 1;
    for mask in 1u64..1 << count {
        if members(mask).any(|seed| mask & !friends[seed] != 0) {
            continue;
        }
        let total = members(mask)
            .map(|seed| session.seeds[seed].score as i64)
            .sum();
        let chain = Chain { total, mask };
        ties = if total > best.total {
            1
        } else {
            ties + (total == best.total) as usize
        };
        if wins(chain, best) {
            best = chain;
        }
    }
    (best, ties)
}

/// The tie rule as it is told: look at the highest number that is in just one of the two.
fn wins(chain: Chain, other: Chain) -> bool {
    if chain.total != other.total {
        return chain.total > other.total;
    }
    let highest = 63 - (chain.mask ^ other.mask).leading_zeros();
    chain.mask >> highest & 1 == 0
}

pub fn print_chain(chain: Chain) -> Vec<u8> {
    let mut lines = Vec::with_capacity(256);
    // In hundredths (document 02, a); the empty chain is one too, so that no best total is below 0.
    let (whole, hundredths) = (chain.total / 100, chain.total % 100);
    write!(lines, "score {whole}.{hundredths:02}\nchain").expect("memory takes all");
    for seed in members(chain.mask) {
        write!(lines, " {}", seed + 1).expect("memory takes all");
    }
    lines.push(b'\n');
    lines
}

pub fn print_refusal(refusal: &Refusal) -> Vec<u8> {
    let ground = refusal.ground;
    match refusal.place {
        Place::Nothing => format!("refused {ground}\n"),
        Place::Q(at) => format!("refused {ground} Q {at}\n"),
        Place::T(at) => format!("refused {ground} T {at}\n"),
        Place::Seed(number) => format!("refused {ground} seed {number}\n"),
    }
    .into_bytes()
}
