//! Makes blocks pair by pair: for each count n, a block with exactly the first n pairs of a list, and blocks in which the next pair
//! is refused.

use super::cases::Case;
use super::strip::{pair, Strip};
use crate::decoder::file::{PictureType, INTRA, NON_INTRA};
use crate::random::Random;

/// The first pairs of a list whose pairs all have the same run.
#[derive(Clone, Copy, Debug, PartialEq, Eq, PartialOrd, Ord)]
pub struct Pairs {
    pub intra: bool,
    /// 0 if there is no pair.
    pub run: usize,
    pub count: usize,
}

/// What a level is scaled to.
#[derive(Clone, Copy, Debug, PartialEq, Eq, PartialOrd, Ord)]
pub enum Scaled {
    /// -2048.
    Lowest,
    Negative,
    NegativeToZero,
    PositiveToZero,
    Positive,
    /// 2047.
    Highest,
}

/// What is wrong with a pair.
#[derive(Clone, Copy, Debug, PartialEq, Eq, PartialOrd, Ord)]
pub enum Fault {
    /// Its position is past 63.
    Position,
    ZeroLevel,
    LowLevel,
    HighLevel,
    /// Only this many bytes of it are in the body.
    Cut(usize),
}

/// What comes after pairs.
#[derive(Clone, Copy, Debug, PartialEq, Eq, PartialOrd, Ord)]
pub enum Next {
    /// The block ends. This is what its last pair's level is scaled to, if it has a pair.
    End(Option<Scaled>),
    /// A pair with this fault.
    Refused(Fault),
}

/// A block as far as it is read.
#[derive(Clone, Copy, Debug, PartialEq, Eq, PartialOrd, Ord)]
pub struct Stage {
    pub pairs: Pairs,
    pub next: Next,
}

/// What levels are scaled to if they are not limited.
const SMALL: [Scaled; 4] = {
    use Scaled::{Negative, NegativeToZero, Positive, PositiveToZero};
    [Negative, NegativeToZero, Positive, PositiveToZero]
};

const LIMITS: [Scaled; 2] = [Scaled::Lowest, Scaled::Highest];

const FAULTS: [Fault; 7] = {
    use Fault::{Cut, HighLevel, LowLevel, Position, ZeroLevel};
    [
        Position,
        Cut(0),
        Cut(1),
        Cut(2),
        ZeroLevel,
        LowLevel,
        HighLevel,
    ]
};

/// Every stage that must occur: all stages of blocks whose pairs have the same run, except that a last level is limited only if it
/// is the only one.
pub fn all_stages() -> Vec<Stage> {
    let each = [false, true].into_iter().flat_map(all_pairs);
    let stages = |pairs: Pairs| {
        let ends = pairs.ends().into_iter().map(Next::End);
        let refused = pairs.faults().iter().copied().map(Next::Refused);
        let nexts: Vec<Next> = ends.chain(refused).collect();
        nexts.into_iter().map(move |next| Stage { pairs, next })
    };
    each.flat_map(stages).collect()
}

/// All pairs that a block has room for. For each run, their count falls, so that a coefficient left over from one block shows in the
/// next.
fn all_pairs(intra: bool) -> Vec<Pairs> {
    let most = most_pairs(intra);
    let pairs = |run, count| Pairs { intra, run, count };
    let mut all = Vec::new();
    for run in 0..most {
        let counts = 1..=most / (run + 1);
        all.extend(counts.rev().map(|count| pairs(run, count)));
    }
    all.push(pairs(0, 0));
    all
}

/// All pairs that a block can consist of.
fn whole_blocks(intra: bool) -> Vec<Pairs> {
    let mut all = all_pairs(intra);
    all.retain(|pairs| intra || pairs.count > 0);
    all
}

/// "A count of pairs (intra 0..63, else 1..64)".
fn most_pairs(intra: bool) -> usize {
    64 - usize::from(intra)
}

impl Pairs {
    /// The pairs that land at these positions, if they all have the same run.
    pub fn at(intra: bool, positions: &[usize]) -> Option<Pairs> {
        let first = positions.first();
        let pairs = Pairs {
            intra,
            run: first.map_or(0, |position| position - usize::from(intra)),
            count: positions.len(),
        };
        pairs
            .positions()
            .eq(positions.iter().copied())
            .then_some(pairs)
    }

    pub fn positions(self) -> impl Iterator<Item = usize> {
        (1..=self.count).map(move |count| Pairs { count, ..self }.end() - 1)
    }

    /// The position after the last one.
    fn end(self) -> usize {
        usize::from(self.intra) + self.count * (self.run + 1)
    }

    /// What the last level must be scaled to in blocks of these pairs; empty if no block can have just these.
    fn ends(self) -> Vec<Option<Scaled>> {
        match (self.intra, self.count) {
            (false, 0) => Vec::new(),
            (true, 0) => vec![None],
            (_, 1) => SMALL.into_iter().chain(LIMITS).map(Some).collect(),
            _ => SMALL.map(Some).to_vec(),
        }
    }

    /// The faults that the next pair can have. A full block has no next pair; after position 63, every run is too long.
    fn faults(self) -> &'static [Fault] {
        if self.count == most_pairs(self.intra) {
            return &[];
        }
        if self.end() == 64 {
            return &FAULTS[..2];
        }
        &FAULTS
    }
}

impl Scaled {
    /// What a level is scaled to if it gives this coefficient.
    pub fn of(level: i64, coefficient: i64) -> Scaled {
        match coefficient {
            -2048 => Scaled::Lowest,
            2047 => Scaled::Highest,
            0 if level < 0 => Scaled::NegativeToZero,
            0 => Scaled::PositiveToZero,
            ..0 => Scaled::Negative,
            _ => Scaled::Positive,
        }
    }

    /// A weight and a level that give this with a scale of 1 or 2. If it is not 0, it shows in the picture.
    fn weight_and_level(self, random: &mut Random) -> (i64, i64) {
        let weight = match self {
            Scaled::NegativeToZero | Scaled::PositiveToZero => random.within(1, 2),
            Scaled::Negative | Scaled::Positive => random.within(64, 128),
            Scaled::Lowest | Scaled::Highest => random.within(130, 255),
        };
        let level = match self {
            Scaled::Lowest => -255,
            Scaled::Negative => -random.within(1, 3),
            Scaled::NegativeToZero => -1,
            Scaled::PositiveToZero => 1,
            Scaled::Positive => random.within(1, 3),
            Scaled::Highest => 255,
        };
        (weight, level)
    }
}

/// Pictures in which every stage occurs: of one macroblock if they are legal; else of two, and a block of the second is refused.
pub fn stage_cases(seed: u64) -> Vec<Case> {
    let mut cases = Vec::new();
    for intra in [false, true] {
        let random = &mut Random::new(&[seed, u64::from(intra), 10]);
        cases.extend(limited_cases(random, intra));
        cases.extend(other_cases(random, intra));
    }
    cases
}

/// Blocks whose first level is limited: alone, or with another one. With another one, pels round differently if the limit is wrong
/// by 1; alone, they may not.
fn limited_cases(random: &mut Random, intra: bool) -> Vec<Case> {
    let mut short = all_pairs(intra);
    short.retain(|pairs| [1, 2].contains(&pairs.count));
    let mut cases = Vec::new();
    for limit in LIMITS {
        let lists = Lists::limited(random, intra, limit);
        cases.extend(lists.whole_cases(random, &short));
    }
    cases
}

/// All other blocks. From one of the lists to the next, each position's level is scaled to the next of `SMALL`.
fn other_cases(random: &mut Random, intra: bool) -> Vec<Case> {
    let turns: [Lists; SMALL.len()] = std::array::from_fn(|turn| {
        Lists::new(random, intra, |position| {
            SMALL[(position + turn) % SMALL.len()]
        })
    });
    let mut cases = Vec::new();
    for lists in &turns {
        cases.extend(lists.whole_cases(random, &whole_blocks(intra)));
    }
    let all = all_pairs(intra).into_iter();
    let refused = all.flat_map(|pairs| pairs.faults().iter().map(move |fault| (pairs, *fault)));
    for ((pairs, fault), lists) in refused.zip(turns.iter().cycle()) {
        cases.push(lists.refused_case(random, pairs, fault));
    }
    cases
}

/// A list of pairs for each run: a pair has the level of its position, but the first may have another.
struct Lists {
    intra: bool,
    scale: u8,
    /// By position.
    weights: [u8; 64],
    /// By position.
    levels: [i64; 64],
    first_level: Option<i64>,
}

impl Lists {
    /// Lists whose levels are scaled to what is wanted at each position.
    fn new(random: &mut Random, intra: bool, wanted: impl Fn(usize) -> Scaled) -> Lists {
        let mut lists = Lists {
            intra,
            scale: random.within(1, 2) as u8,
            weights: [8; 64],
            levels: [0; 64],
            first_level: None,
        };
        // In an intra block, no pair lands at position 0, and its weight stays 8.
        for position in usize::from(intra)..64 {
            let (weight, level) = wanted(position).weight_and_level(random);
            lists.weights[position] = weight as u8;
            lists.levels[position] = level;
        }
        lists
    }

    /// Lists whose first level is limited; the others are small.
    fn limited(random: &mut Random, intra: bool, limit: Scaled) -> Lists {
        let lists = Lists::new(random, intra, |_| limit);
        Lists {
            levels: [(); 64].map(|()| random.pick(&[-1, 1])),
            first_level: lists.levels.last().copied(),
            ..lists
        }
    }

    /// Pictures of one macroblock, with blocks of these pairs each.
    fn whole_cases(&self, random: &mut Random, pairs: &[Pairs]) -> Vec<Case> {
        let case = |pairs: &[Pairs]| {
            let six = pairs.iter().cycle().take(6);
            let blocks = six.map(|pairs| self.block(random, *pairs, None)).collect();
            self.picture(random, &[blocks])
        };
        pairs.chunks(6).map(case).collect()
    }

    /// A picture of two macroblocks; in a block of the second one, a pair with this fault follows these pairs.
    fn refused_case(&self, random: &mut Random, pairs: Pairs, fault: Fault) -> Case {
        let whole = whole_blocks(self.intra);
        let mut six = || -> Vec<Vec<u8>> {
            let six = [(); 6].map(|()| random.pick(&whole));
            six.map(|pairs| self.block(random, pairs, None)).to_vec()
        };
        let (first, mut second) = (six(), six());
        let at = random.below(6);
        second[at] = self.block(random, pairs, Some(fault));
        if let Fault::Cut(_) = fault {
            second.truncate(at + 1);
        }
        Case {
            legal: false,
            ..self.picture(random, &[first, second])
        }
    }

    /// A picture of macroblocks side by side, with these blocks.
    fn picture(&self, random: &mut Random, macroblocks: &[Vec<Vec<u8>>]) -> Case {
        let (picture_type, matrix, fields): (_, _, &[u8]) = if self.intra {
            (PictureType::I, INTRA, &[16, 0, 1])
        } else {
            (PictureType::P, NON_INTRA, &[8, 0, 1, 63])
        };
        let strip = Strip {
            picture_type,
            width: macroblocks.len(),
            matrices: vec![(matrix, self.weights)],
            scale: self.scale,
        };
        let body = |blocks: &Vec<Vec<u8>>| [fields, &blocks.concat()].concat();
        strip.case(random, macroblocks.iter().map(body))
    }

    /// A block with these pairs and perhaps, after them, one with a fault.
    fn block(&self, random: &mut Random, pairs: Pairs, fault: Option<Fault>) -> Vec<u8> {
        let mut block = Vec::new();
        if self.intra {
            // Small enough that even after eight Y blocks the DC is within its range.
            let difference = random.within(-15, 15) as i16;
            block.extend(difference.to_be_bytes());
        }
        block.push((pairs.count + usize::from(fault.is_some())) as u8);
        let levels = pairs.positions().map(|position| self.levels[position]);
        let mut levels = Vec::from_iter(levels);
        if let (Some(first), Some(limited)) = (levels.first_mut(), self.first_level) {
            *first = limited;
        }
        for level in levels {
            block.extend(pair(pairs.run, level));
        }
        if let Some(fault) = fault {
            block.extend(refused_pair(random, 64 - pairs.end(), fault));
        }
        block
    }
}

/// A pair with this fault, or the part of it that is left, where the block has room for `left` more positions.
fn refused_pair(random: &mut Random, left: usize, fault: Fault) -> Vec<u8> {
    let run = random.below(left.max(1));
    match fault {
        Fault::Position => pair(random.pick(&[left, 255]), 1).to_vec(),
        Fault::ZeroLevel => pair(run, 0).to_vec(),
        Fault::LowLevel => pair(run, random.pick(&[-256, -32768])).to_vec(),
        Fault::HighLevel => pair(run, random.pick(&[256, 32767])).to_vec(),
        Fault::Cut(length) => pair(run, 1)[..length].to_vec(),
    }
}
