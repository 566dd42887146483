//! Inputs from a fixed start: valid ones, and ones that are damaged in every way documents 01 and 02
//! name.

use crate::random::Random;
use crate::reference::{read_tree, some_node_is_missing, Pair, Tree};
use crate::texts::{damage_text, exchange_leaves, in_some_characters, some_texts};
use std::ops::Range;

/// What an input is made from: two texts, and seeds as scores with pairs.
#[derive(Clone)]
pub struct Draft {
    pub q: Vec<u8>,
    pub t: Vec<u8>,
    pub seeds: Vec<(i32, Vec<Pair>)>,
}

/// Any input: more than a third are valid, the others are damaged once or twice.
pub fn any_input(random: &mut Random) -> Vec<u8> {
    let draft = valid_draft(random);
    match random.below(100) {
        0..=34 => lay_out(random, &draft),
        35..=59 => with_bad_seeds(random, draft),
        60 | 61 => with_other_leaves(random, draft),
        62..=73 => with_bad_deck(random, &draft, damage_records),
        74..=78 => with_bad_deck(random, &draft, damage_layout),
        79..=92 => with_bad_texts(random, draft),
        93..=97 => {
            let whole = lay_out(random, &draft);
            damage_whole(random, whole)
        }
        _ => damage_everything(random, draft),
    }
}

fn with_bad_seeds(random: &mut Random, mut draft: Draft) -> Vec<u8> {
    // Small trees have no place for most kinds of this damage.
    while draft.q.len().min(draft.t.len()) < 10 && random.chance(90) {
        draft = valid_draft(random);
    }
    damage_seed(random, &mut draft);
    if random.chance(25) {
        damage_seed(random, &mut draft);
    }
    lay_out(random, &draft)
}

/// The trees keep their shape, so that 25 is all that the seeds can meet.
fn with_other_leaves(random: &mut Random, mut draft: Draft) -> Vec<u8> {
    for text in [&mut draft.q, &mut draft.t] {
        let count = random.pick(&[0, 1, 3, 10]);
        exchange_leaves(random, text, count);
    }
    lay_out(random, &draft)
}

fn with_bad_deck(
    random: &mut Random,
    draft: &Draft,
    damage: fn(&mut Random, &mut Vec<u8>),
) -> Vec<u8> {
    let mut deck = some_deck(random, draft);
    damage(random, &mut deck);
    // A second look at the counts needs them to be there.
    if deck.len() >= 4 && random.chance(30) {
        damage(random, &mut deck);
    }
    join(&draft.q, &draft.t, &deck)
}

fn with_bad_texts(random: &mut Random, mut draft: Draft) -> Vec<u8> {
    damage_texts(random, &mut draft);
    lay_out(random, &draft)
}

// ---- valid seeds ----

fn children(tree: &Tree, node: u8) -> Vec<u8> {
    (tree.left(node)..node)
        .filter(|&kid| tree.parent[kid as usize] == node)
        .collect()
}

/// Nodes below a node that may be paired next; those marked must be, because the node between stays
/// unpaired and then has to have all its children in the span.
fn fringe(random: &mut Random, tree: &Tree, node: u8) -> Vec<(u8, bool)> {
    let mut list: Vec<(u8, bool)> = children(tree, node)
        .iter()
        .map(|&kid| (kid, false))
        .collect();
    while !list.is_empty() && random.chance(35) {
        let at = random.below(list.len());
        let inner = children(tree, list[at].0);
        if !inner.is_empty() {
            list.splice(at..=at, inner.iter().map(|&kid| (kid, true)));
        }
    }
    list
}

/// Any `size` nodes of a fringe, all those that must be among them.
fn choose(random: &mut Random, list: &[(u8, bool)], size: usize) -> Vec<u8> {
    let mut free: Vec<u8> = list
        .iter()
        .filter(|item| !item.1)
        .map(|item| item.0)
        .collect();
    random.shuffle(&mut free);
    free.truncate(size - must(list));
    list.iter()
        .filter(|item| item.1 || free.contains(&item.0))
        .map(|item| item.0)
        .collect()
}

fn must(list: &[(u8, bool)]) -> usize {
    list.iter().filter(|item| item.1).count()
}

/// Pairs to stand just below a pair, in order, at most `room` of them.
fn next_pairs(
    random: &mut Random,
    q: &Tree,
    t: &Tree,
    upper: Pair,
    alike: bool,
    room: usize,
) -> Vec<Pair> {
    let in_q = fringe(random, q, upper.q);
    if !alike {
        let in_t = fringe(random, t, upper.t);
        return like_pairs(random, (q, &in_q), (t, &in_t), room);
    }
    let (least, most) = (must(&in_q), in_q.len().min(room));
    if least > most {
        return Vec::new();
    }
    let size = if random.chance(40) {
        most
    } else {
        random.size(least, most)
    };
    let chosen = choose(random, &in_q, size);
    chosen
        .iter()
        .map(|&node| Pair { q: node, t: node })
        .collect()
}

/// Like nodes of two fringes paired from left to right, all those that must be among them; none if
/// this does not come out.
fn like_pairs(
    random: &mut Random,
    (q, in_q): (&Tree, &[(u8, bool)]),
    (t, in_t): (&Tree, &[(u8, bool)]),
    room: usize,
) -> Vec<Pair> {
    let keep = random.pick(&[50, 90, 100]);
    let (mut rest_q, mut rest_t) = (in_q, in_t);
    let mut pairs = Vec::new();
    while let (&[(q_node, must_q), ..], &[(t_node, must_t), ..]) = (rest_q, rest_t) {
        let pair = Pair {
            q: q_node,
            t: t_node,
        };
        let may = pairs.len() < room && is_like(q, t, pair);
        if may && (must_q && must_t || random.chance(keep)) {
            pairs.push(pair);
            (rest_q, rest_t) = (&rest_q[1..], &rest_t[1..]);
        } else if !must_q && (must_t || random.chance(50)) {
            rest_q = &rest_q[1..];
        } else if !must_t {
            rest_t = &rest_t[1..];
        } else {
            return Vec::new();
        }
    }
    if must(rest_q) + must(rest_t) > 0 {
        return Vec::new();
    }
    pairs
}

fn is_like(q: &Tree, t: &Tree, pair: Pair) -> bool {
    q.kind[pair.q as usize] == t.kind[pair.t as usize]
}

/// The pair with the nearest node of T that is like; if T has none, the two roots.
fn made_like(q: &Tree, t: &Tree, pair: Pair) -> Pair {
    let like = (0..t.count).map(|node| Pair {
        q: pair.q,
        t: node as u8,
    });
    like.filter(|&pair| is_like(q, t, pair))
        .min_by_key(|like| like.t.abs_diff(pair.t))
        .unwrap_or(Pair {
            q: (q.count - 1) as u8,
            t: (t.count - 1) as u8,
        })
}

/// A valid seed, if its last pair is of like nodes: from there down, every border node is paired.
fn grow_seed(
    random: &mut Random,
    q: &Tree,
    t: &Tree,
    last: Pair,
    alike: bool,
    room: usize,
) -> Vec<Pair> {
    let mut pairs = vec![last];
    let mut next = 0;
    let stop = random.pick(&[0, 20, 60]);
    while next < pairs.len() {
        let upper = pairs[next];
        next += 1;
        let rest = room - pairs.len();
        if rest > 0 && !random.chance(stop) {
            let alike = alike && upper.q == upper.t;
            pairs.extend(next_pairs(random, q, t, upper, alike, rest));
        }
    }
    pairs.sort_by_key(|pair| pair.q);
    pairs
}

pub fn some_score(random: &mut Random, style: usize) -> i32 {
    let score = match style {
        0 => random.between(-1_000_000, 1_000_000),
        1 => random.between(-1, 2),
        2 => random.between(1, 3),
        3 => random.between(-1_000_000, 0),
        4 => random.pick(&[-1_000_000, -999_999, -1, 0, 1, 999_999, 1_000_000]),
        5 => 0,
        6 => 1_000_000,
        _ => random.between(1, 1000),
    };
    score as i32
}

fn some_seed_count(random: &mut Random) -> usize {
    match random.below(20) {
        0 => 0,
        1..=6 => random.size(1, 5),
        7..=13 => random.size(5, 12),
        14..=17 => random.size(12, 40),
        18 => random.size(40, 64),
        _ => 64,
    }
}

/// A last pair of like nodes; for like trees mostly the same node twice, so that many seeds chain.
fn some_last(random: &mut Random, q: &Tree, t: &Tree, alike: bool) -> Pair {
    let (mut low_q, mut low_t) = (random.below(q.count), random.below(t.count));
    if alike && random.chance(85) {
        low_t = low_q;
    } else if random.chance(50) {
        // About the same place in both trees, so that order is kept more often.
        low_t = (low_q * t.count / q.count).min(t.count - 1);
    }
    if random.chance(2) {
        (low_q, low_t) = (q.count - 1, t.count - 1);
    }
    let drawn = Pair {
        q: low_q as u8,
        t: low_t as u8,
    };
    made_like(q, t, drawn)
}

fn valid_draft(random: &mut Random) -> Draft {
    let (q, t) = some_texts(random);
    let seeds = some_seed_count(random);
    let most = if random.chance(5) {
        256
    } else {
        random.pick(&[1, 2, 3, 4, 6, 12, 30])
    };
    let style = random.pick(&[0, 0, 1, 1, 1, 2, 2, 3, 4, 4, 5, 6, 7, 7]);
    let mut draft = draft_on(random, q, t, seeds, most, style);
    // Seeds hang on the trees alone, so that other characters leave them valid.
    if random.chance(60) {
        draft.q = in_some_characters(random, &draft.q);
        draft.t = in_some_characters(random, &draft.t);
    }
    draft
}

/// Valid seeds of at most `most` pairs on two given texts, never beyond 1,024 pairs in all.
pub fn draft_on(
    random: &mut Random,
    q: Vec<u8>,
    t: Vec<u8>,
    seeds: usize,
    most: usize,
    style: usize,
) -> Draft {
    let alike = q == t;
    let (q_tree, t_tree) = (must_read(&q), must_read(&t));
    let mut room = 1024;
    let mut draft = Draft {
        q,
        t,
        seeds: Vec::new(),
    };
    for made in 0..seeds {
        // One pair stays set aside for each seed that is still to come.
        let own = most.min(room - (seeds - made - 1));
        let last = some_last(random, &q_tree, &t_tree, alike);
        let pairs = grow_seed(random, &q_tree, &t_tree, last, alike, own);
        room -= pairs.len();
        draft.seeds.push((some_score(random, style), pairs));
    }
    if draft.seeds.len() < 64 && draft.seeds.len() > 1 && room > 256 && random.chance(10) {
        let again = random.pick(&[0, draft.seeds.len() - 1]);
        draft.seeds.push(draft.seeds[again].clone());
    }
    draft
}

pub fn must_read(text: &[u8]) -> Tree {
    read_tree(text).unwrap_or_else(|_| panic!("the text made here is a structure"))
}

// ---- decks ----

pub fn join(q: &[u8], t: &[u8], deck: &[u8]) -> Vec<u8> {
    [q, b"\n", t, b"\n", deck].concat()
}

/// Q and T of an input with two line feeds.
pub fn texts_of(input: &[u8]) -> [&[u8]; 2] {
    let mut texts = input.split(|&byte| byte == b'\n');
    [(); 2].map(|_| texts.next().expect("two line feeds end two texts"))
}

/// The deck's bytes; the records lie in the given order of places, one after another if plain.
fn encode(seeds: &[(i32, Vec<Pair>)], places: &[usize]) -> Vec<u8> {
    let mut deck = vec![seeds.len() as u8, 0];
    deck.extend((places.len() as u16).to_be_bytes());
    let mut records = vec![0; 4 * places.len()];
    let mut used = 0;
    for (score, pairs) in seeds {
        let own = &places[used..used + pairs.len()];
        used += pairs.len();
        deck.extend(score.to_be_bytes());
        deck.extend((own.first().map_or(0, |place| place + 1) as u16).to_be_bytes());
        for (at, pair) in pairs.iter().enumerate() {
            let next = own.get(at + 1).map_or(0, |place| place + 1) as u16;
            let record = [pair.q, pair.t, (next >> 8) as u8, next as u8];
            records[4 * own[at]..4 * own[at] + 4].copy_from_slice(&record);
        }
    }
    deck.extend(records);
    deck
}

pub fn plain_deck(seeds: &[(i32, Vec<Pair>)]) -> Vec<u8> {
    let count = seeds.iter().map(|seed| seed.1.len()).sum();
    encode(seeds, &(0..count).collect::<Vec<_>>())
}

/// The deck in plain form, or with its records strewn.
fn some_deck(random: &mut Random, draft: &Draft) -> Vec<u8> {
    let count = draft.seeds.iter().map(|seed| seed.1.len()).sum();
    let mut places: Vec<usize> = (0..count).collect();
    match random.below(4) {
        0 => random.shuffle(&mut places),
        1 => places.reverse(),
        _ => (),
    }
    encode(&draft.seeds, &places)
}

pub fn lay_out(random: &mut Random, draft: &Draft) -> Vec<u8> {
    join(&draft.q, &draft.t, &some_deck(random, draft))
}

// ---- damage to one seed: grounds 11 to 19 and 25 ----

fn damage_seed(random: &mut Random, draft: &mut Draft) {
    let (q, t) = (must_read(&draft.q), must_read(&draft.t));
    if draft.seeds.is_empty() {
        draft.seeds.push((1, vec![Pair { q: 0, t: 0 }]));
    }
    let chosen = random.below(draft.seeds.len());
    let total: usize = draft.seeds.iter().map(|seed| seed.1.len()).sum();
    let (score, pairs) = &mut draft.seeds[chosen];
    // A larger seed has more to break, but 1,024 pairs must leave room for it.
    if pairs.len() < 3 && total <= 1000 {
        let last = Pair {
            q: inner_node(random, &q),
            t: inner_node(random, &t),
        };
        *pairs = grow_seed(random, &q, &t, made_like(&q, &t, last), false, 20);
    }
    let at = random.below(pairs.len());
    match random.below(22) {
        0 => *score = bad_score(random),
        1 => pairs[at].q = outside(random, &q),
        2 => pairs[at].t = outside(random, &t),
        3 => pairs.reverse(),
        4 => level_neighbours(random, pairs),
        5 => swap_some_t(random, pairs),
        6 => nudge(random, pairs, &q, &t),
        7 if pairs.len() > 2 => drop(pairs.pop()),
        8..=10 if pairs.len() > 2 => thin_out(random, pairs),
        11 | 12 if total <= 1000 => *pairs = bare_path(random, &q, &t),
        13 | 14 if total <= 1000 => *pairs = rising_lists(random, &q, &t),
        15 if total <= 1000 => *pairs = leaves(random, &q, &t),
        16 | 17 => {
            pairs[at].t = random.below(t.count) as u8;
            return;
        }
        _ => other_ts(random, pairs, &q, &t),
    }
    // Unlike nodes would hide the grounds that come after 25, so few of them stay.
    if !some_node_is_missing(&q, &t, pairs) && random.chance(85) {
        make_all_like(&q, &t, pairs);
    }
}

fn make_all_like(q: &Tree, t: &Tree, pairs: &mut [Pair]) {
    for pair in pairs {
        *pair = made_like(q, t, *pair);
    }
}

/// Leaves out pairs before the last, so that a border may stay unpaired.
fn thin_out(random: &mut Random, pairs: &mut Vec<Pair>) {
    let last = pairs[pairs.len() - 1];
    let keep = random.pick(&[30, 60, 90]);
    pairs.retain(|pair| *pair == last || random.chance(keep));
}

/// Other nodes below the last t, so that ancestry may differ.
fn other_ts(random: &mut Random, pairs: &mut [Pair], q: &Tree, t: &Tree) {
    if let Some((last, others)) = pairs.split_last_mut() {
        spread(random, others, q, t, t.left(last.t)..last.t);
    }
}

/// Each t anew: one of the next few nodes that are like, as long as there are some.
fn spread(random: &mut Random, pairs: &mut [Pair], q: &Tree, t: &Tree, mut nodes: Range<u8>) {
    for pair in pairs {
        let few = random.pick(&[1, 2, 5]);
        let like = |node: &u8| is_like(q, t, Pair { t: *node, ..*pair });
        if let Some(node) = nodes.clone().filter(like).take(few).last() {
            pair.t = node;
            nodes.start = node + 1;
        }
    }
}

fn bad_score(random: &mut Random) -> i32 {
    let any = random.next() as i32;
    let far = if any.unsigned_abs() > 1_000_000 {
        any
    } else {
        1_000_001
    };
    random.pick(&[1_000_001, -1_000_001, i32::MIN, i32::MAX, far])
}

/// A number that is no node, if there is one below 256.
fn outside(random: &mut Random, tree: &Tree) -> u8 {
    if random.chance(40) {
        tree.count.min(255) as u8
    } else {
        random.size(tree.count.min(255), 255) as u8
    }
}

fn level_neighbours(random: &mut Random, pairs: &mut Vec<Pair>) {
    let at = random.below(pairs.len());
    if at + 1 == pairs.len() {
        pairs.insert(at, pairs[at]);
    } else if random.chance(50) {
        pairs[at].q = pairs[at + 1].q;
    } else {
        pairs[at].t = pairs[at + 1].t;
    }
}

fn swap_some_t(random: &mut Random, pairs: &mut [Pair]) {
    let (a, b) = (random.below(pairs.len()), random.below(pairs.len()));
    let held = pairs[a].t;
    pairs[a].t = pairs[b].t;
    pairs[b].t = held;
}

/// Moves one number by a little or to anywhere between its neighbours.
fn nudge(random: &mut Random, pairs: &mut [Pair], q: &Tree, t: &Tree) {
    let at = random.below(pairs.len());
    let step = random.pick(&[-2, -1, 1, 2]);
    let moved = |old: u8, count: usize| (old as i64 + step).clamp(0, count as i64 - 1) as u8;
    if random.chance(50) {
        pairs[at].q = moved(pairs[at].q, q.count);
    } else {
        pairs[at].t = moved(pairs[at].t, t.count);
    }
}

/// A last pair with pairs far below it and mostly nothing paired on the way.
fn bare_path(random: &mut Random, q: &Tree, t: &Tree) -> Vec<Pair> {
    let (top_q, top_t) = (inner_node(random, q), inner_node(random, t));
    let mut pairs = vec![Pair { q: top_q, t: top_t }];
    let (low_q, low_t) = (q.left(top_q), t.left(top_t));
    if low_q < top_q && low_t < top_t {
        let low = Pair {
            q: random.size(low_q.into(), top_q as usize - 1) as u8,
            t: low_t,
        };
        pairs.insert(0, low);
    }
    pairs
}

/// The one with the largest subtree out of a few, often the added root.
fn inner_node(random: &mut Random, tree: &Tree) -> u8 {
    let some = (0..4).map(|_| random.below(tree.count) as u8);
    some.max_by_key(|&node| node - tree.left(node)).unwrap_or(0)
}

pub fn rising(random: &mut Random, count: usize, size: usize) -> Vec<u8> {
    let mut all: Vec<u8> = (0..count).map(|node| node as u8).collect();
    random.shuffle(&mut all);
    all.truncate(size);
    all.sort_unstable();
    all
}

fn rising_lists(random: &mut Random, q: &Tree, t: &Tree) -> Vec<Pair> {
    let size = random.size(2, 5).min(q.count).min(t.count);
    let qs = rising(random, q.count, size);
    let mut pairs: Vec<Pair> = qs.iter().map(|&q| Pair { q, t: 0 }).collect();
    spread(random, &mut pairs, q, t, 0..(t.count - 1) as u8);
    pairs
}

fn leaves(random: &mut Random, q: &Tree, t: &Tree) -> Vec<Pair> {
    let list = |tree: &Tree| -> Vec<u8> {
        (0..tree.count)
            .map(|node| node as u8)
            .filter(|&node| tree.left(node) == node)
            .collect()
    };
    let size = random.size(1, 4);
    let (qs, ts) = (list(q), list(t));
    qs.iter()
        .zip(&ts)
        .take(size)
        .map(|(&q, &t)| Pair { q, t })
        .collect()
}

// ---- damage to the records: grounds 6 to 8 ----

fn set_two(deck: &mut [u8], at: usize, number: usize) {
    deck[at..at + 2].copy_from_slice(&(number as u16).to_be_bytes());
}

fn damage_records(random: &mut Random, deck: &mut Vec<u8>) {
    let (seeds, pairs) = (deck[0] as usize, deck[2] as usize * 256 + deck[3] as usize);
    if seeds == 0 || pairs == 0 {
        return add_record(deck, pairs);
    }
    let first = 4 + 6 * random.below(seeds) + 4;
    let next = 4 + 6 * seeds + 4 * random.below(pairs) + 2;
    let record = 1 + random.below(pairs);
    let beyond = random
        .pick(&[pairs + 1, pairs + 2, 1025, 0x8000, 0xFFFF])
        .max(pairs + 1);
    match random.below(9) {
        0 => set_two(deck, first, 0),
        1 => set_two(deck, first, beyond),
        2 => set_two(deck, next, beyond),
        3 => set_two(deck, first, record),
        4 => set_two(deck, next, record),
        // A record that follows itself.
        5 => set_two(deck, next, (next - 6 - 6 * seeds) / 4 + 1),
        6 => set_two(deck, next, 0),
        7 => add_record(deck, pairs),
        _ => add_seed(deck, seeds, record),
    }
}

/// One more record that nothing leads to.
fn add_record(deck: &mut Vec<u8>, pairs: usize) {
    if pairs < 1024 {
        set_two(deck, 2, pairs + 1);
        deck.extend([0; 4]);
    }
}

/// One more seed on a record that another one has.
fn add_seed(deck: &mut Vec<u8>, seeds: usize, record: usize) {
    if seeds < 64 {
        deck[0] += 1;
        let at = 4 + 6 * seeds;
        deck.splice(at..at, [0, 0, 0, 1, (record >> 8) as u8, record as u8]);
    }
}

// ---- damage to the layout: ground 5 ----

fn damage_layout(random: &mut Random, deck: &mut Vec<u8>) {
    match random.below(9) {
        0 => deck[0] = deck[0].wrapping_add(random.pick(&[1, 255])),
        1 => deck[1] = random.pick(&[1, 0x80, 0xFF]),
        2 => deck[3] = deck[3].wrapping_add(random.pick(&[1, 255])),
        3 => deck.truncate(random.below(deck.len())),
        4 => deck.truncate(random.below(5)),
        5 => deck.push(random.pick(&[0, b'\n', 0xFF])),
        6 => (0..random.size(1, 40)).for_each(|_| deck.push(random.byte())),
        7 => *deck = full_deck(65, 65 + random.below(900)),
        _ => *deck = full_deck(random.size(1, 64), 1025),
    }
}

/// A deck of one-pair seeds, the last one with all records left; its length fits its counts.
pub fn full_deck(seeds: usize, pairs: usize) -> Vec<u8> {
    let mut list = vec![(1, vec![Pair { q: 0, t: 0 }]); seeds];
    list[seeds - 1].1 = vec![Pair { q: 0, t: 0 }; pairs + 1 - seeds];
    plain_deck(&list)
}

// ---- damage to the texts: grounds 1 to 4 and 24 ----

fn damage_texts(random: &mut Random, draft: &mut Draft) {
    // A bad Q hides what is wrong with T, so T is damaged more often.
    for (text, percent) in [(&mut draft.q, 45), (&mut draft.t, 70)] {
        if random.chance(percent) {
            damage_text(random, text);
            // Two at once show which ground comes first.
            if random.chance(25) {
                damage_text(random, text);
            }
        }
    }
}

// ---- damage to the whole input ----

fn damage_whole(random: &mut Random, mut whole: Vec<u8>) -> Vec<u8> {
    match random.below(8) {
        0 | 1 => {
            let feeds: Vec<usize> = (0..whole.len()).filter(|&at| whole[at] == b'\n').collect();
            whole.remove(random.pick(&feeds[..2]));
        }
        2 => whole.truncate(random.below(whole.len())),
        3 => whole.insert(random.below(whole.len() + 1), b'\n'),
        4 => beyond_the_limit(random, &mut whole),
        _ => {
            let at = random.below(whole.len());
            whole[at] = random.byte();
        }
    }
    whole
}

/// More than 8,192 bytes, with and without line feeds.
fn beyond_the_limit(random: &mut Random, whole: &mut Vec<u8>) {
    let length = random.pick(&[8191, 8192, 8193, 9000, 20_000]);
    match random.below(4) {
        0 => whole.resize(length, 0),
        1 => *whole = vec![b'.'; length],
        2 => {
            *whole = b".\n".to_vec();
            whole.resize(length, b'.');
        }
        _ => {
            whole.resize(length, b'.');
            whole.push(b'\n');
            whole.extend(b".\n\0\0\0\0");
        }
    }
}

/// Texts, a seed, records and bytes at once, or bytes that were never an input.
fn damage_everything(random: &mut Random, mut draft: Draft) -> Vec<u8> {
    if random.chance(25) {
        let length = random.below(60);
        return (0..length)
            .map(|_| random.pick(b".()<>_\n\n\0\x01"))
            .collect();
    }
    damage_seed(random, &mut draft);
    let mut deck = some_deck(random, &draft);
    if random.chance(60) {
        damage_records(random, &mut deck);
    }
    if random.chance(30) {
        damage_layout(random, &mut deck);
    }
    if random.chance(30) {
        damage_texts(random, &mut draft);
    }
    join(&draft.q, &draft.t, &deck)
}
