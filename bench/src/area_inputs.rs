//! Inputs for the comparison of open areas: two texts that grow together around a seed, each with forests
//! of its own in the gaps.

use crate::inputs::{join, lay_out, plain_deck, some_score, Draft};
use crate::random::Random;
use crate::reference::{check_seed, open, Pair};
use crate::texts::{in_some_characters, structure};

const LONGEST: usize = 255;

/// One of the two texts while it grows.
struct Side {
    text: Vec<u8>,
    /// How many nodes stand in the text, which is the number of the next one.
    nodes: usize,
    /// How many bytes may still be added.
    room: usize,
}

impl Side {
    fn new(room: usize) -> Side {
        Side {
            text: Vec::new(),
            nodes: 0,
            room,
        }
    }

    /// The closing bracket takes its room here already.
    fn open(&mut self) {
        self.text.push(b'(');
        self.room -= 2;
    }

    fn close(&mut self) -> u8 {
        self.text.push(b')');
        self.nodes += 1;
        (self.nodes - 1) as u8
    }

    fn dot(&mut self) -> u8 {
        self.text.push(b'.');
        self.room -= 1;
        self.nodes += 1;
        (self.nodes - 1) as u8
    }

    fn forest(&mut self, random: &mut Random, longest: usize) {
        let length = random.size(1, longest).min(self.room);
        let open = random.pick(&[0, 30, 60]);
        let forest = structure(random, length, open, 30);
        self.nodes += forest.iter().filter(|&&byte| byte != b'(').count();
        self.room -= length;
        self.text.extend(forest);
    }
}

/// Chances in a hundred, and the length of a forest.
#[derive(Clone, Copy)]
struct Habit {
    /// That a gap has a forest.
    gap: usize,
    forest: usize,
    /// That a run goes on with another item.
    more: usize,
    bracket: usize,
    /// That a bracket stays unpaired.
    bare: usize,
}

fn some_habit(random: &mut Random) -> Habit {
    Habit {
        gap: random.pick(&[10, 30, 60, 90]),
        forest: random.pick(&[1, 2, 5, 20, 100]),
        more: random.pick(&[60, 90, 97, 99]),
        bracket: random.pick(&[10, 40, 70, 95]),
        bare: random.pick(&[0, 20, 50]),
    }
}

/// Two texts that grow together: Q is the first.
struct Growth<'a> {
    random: &'a mut Random,
    habit: Habit,
    sides: [Side; 2],
    pairs: Vec<Pair>,
}

impl Growth<'_> {
    /// A gap below a node of each tree, mostly in both; a node that is unpaired may have none.
    fn gap(&mut self, paired: [bool; 2]) {
        let there = self.random.chance(self.habit.gap);
        for (side, paired) in self.sides.iter_mut().zip(paired) {
            if there && paired && self.random.chance(80) {
                side.forest(self.random, self.habit.forest);
            }
        }
    }

    fn has_room(&self, bytes: usize) -> bool {
        self.sides.iter().all(|side| side.room >= bytes)
    }

    /// What stands below a node of each tree. Below an unpaired node there is an item, unless there is
    /// no room for it.
    fn run(&mut self, paired: [bool; 2]) {
        let mut first = paired.contains(&false);
        self.gap(paired);
        while (first || self.random.chance(self.habit.more)) && self.has_room(1) {
            self.item(paired);
            self.gap(paired);
            first = false;
        }
    }

    fn item(&mut self, paired: [bool; 2]) {
        if !self.has_room(2) || !self.random.chance(self.habit.bracket) {
            let [q, t] = &mut self.sides;
            let pair = Pair {
                q: q.dot(),
                t: t.dot(),
            };
            self.pairs.push(pair);
        } else if self.has_room(3) && self.random.chance(self.habit.bare) {
            let in_q = self.random.chance(60);
            let in_t = !in_q || self.random.chance(40);
            self.bare(paired, [in_q, in_t]);
        } else {
            self.sides.iter_mut().for_each(Side::open);
            self.run([true; 2]);
            let [q, t] = [0, 1].map(|side| self.sides[side].close());
            self.pairs.push(Pair { q, t });
        }
    }

    /// A bracket that is unpaired, in one text or in each.
    fn bare(&mut self, paired: [bool; 2], bare: [bool; 2]) {
        for (side, _) in self.bare_sides(bare) {
            side.open();
        }
        self.run([0, 1].map(|side| paired[side] && !bare[side]));
        for (side, _) in self.bare_sides(bare) {
            side.close();
        }
    }

    fn bare_sides(&mut self, bare: [bool; 2]) -> impl Iterator<Item = (&mut Side, bool)> {
        let sides = self.sides.iter_mut().zip(bare);
        sides.filter(|side| side.1)
    }

    /// The last pair is that of a bracket amid other nodes.
    fn below_the_root(&mut self) {
        let depths = [0, 1].map(|_| self.random.below(4));
        for (side, depth) in self.sides.iter_mut().zip(depths) {
            for _ in 0..depth.min(side.room / 2) {
                side.forest(self.random, 3);
                if side.room >= 2 {
                    side.open();
                }
            }
        }
        if self.has_room(2) {
            self.sides.iter_mut().for_each(Side::open);
            self.run([true; 2]);
            let [q, t] = [0, 1].map(|side| self.sides[side].close());
            self.pairs.push(Pair { q, t });
        }
        for side in &mut self.sides {
            close_all(self.random, side);
        }
    }

    fn at_the_root(&mut self) {
        self.run([true; 2]);
        let [q, t] = [0, 1].map(|side| self.sides[side].nodes as u8);
        self.pairs.push(Pair { q, t });
    }
}

/// Closes what is open, with other nodes between.
fn close_all(random: &mut Random, side: &mut Side) {
    let count = |side: &Side, bracket| side.text.iter().filter(|&&byte| byte == bracket).count();
    for _ in count(side, b')')..count(side, b'(') {
        side.forest(random, 3);
        side.close();
    }
}

fn some_room(random: &mut Random) -> usize {
    match random.below(8) {
        0 | 1 => random.size(0, 12),
        2 | 3 => random.size(10, 60),
        4 | 5 => random.size(60, LONGEST),
        _ => LONGEST,
    }
}

/// Two texts and a seed on them that they grew around.
pub fn grown_draft(random: &mut Random, rooms: [usize; 2]) -> Draft {
    let habit = some_habit(random);
    let below = random.chance(30);
    let mut growth = Growth {
        random,
        habit,
        sides: rooms.map(Side::new),
        pairs: Vec::new(),
    };
    match below {
        true => growth.below_the_root(),
        false => growth.at_the_root(),
    }
    let (pairs, [q, t]) = (growth.pairs, growth.sides.map(|side| side.text));
    Draft {
        q,
        t,
        seeds: vec![(1, pairs)],
    }
}

/// Some pairs of a list up to one of them: another seed, or most often not if many are left out.
fn part_of(random: &mut Random, pairs: &[Pair]) -> Vec<Pair> {
    let end = random.below(pairs.len());
    let start = random.size(0, end);
    let keep = random.pick(&[0, 50, 90, 100]);
    let mut part: Vec<Pair> = pairs[start..end].to_vec();
    part.retain(|_| random.chance(keep));
    part.push(pairs[end]);
    part
}

fn is_accepted(draft: &Draft, seed: &(i32, Vec<Pair>)) -> bool {
    let deck = plain_deck(std::slice::from_ref(seed));
    open(&join(&draft.q, &draft.t, &deck), check_seed).is_ok()
}

/// An input around one seed, with parts of it as further seeds, now and then with pairs left out.
pub fn grown_input(random: &mut Random) -> Vec<u8> {
    let room = some_room(random);
    let other = random.chance(50).then(|| some_room(random));
    let mut draft = grown_draft(random, [room, other.unwrap_or(room)]);
    let whole = draft.seeds[0].1.clone();
    if whole.is_empty() {
        return lay_out(random, &draft);
    }
    if random.chance(15) {
        let left_out = random.below(whole.len());
        draft.seeds[0].1.remove(left_out);
    }
    for _ in 0..random.pick(&[0, 0, 0, 1, 3]) {
        let part = (some_score(random, 7), part_of(random, &whole));
        if is_accepted(&draft, &part) || random.chance(10) {
            draft.seeds.push(part);
        }
    }
    random.shuffle(&mut draft.seeds);
    if random.chance(25) {
        draft.q = in_some_characters(random, &draft.q);
        draft.t = in_some_characters(random, &draft.t);
    }
    lay_out(random, &draft)
}
