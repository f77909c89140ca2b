//! Makes macroblock records with every arrangement of vectors that fit and vectors that don't: those of up to two skipped
//! macroblocks, and the record's own.

use super::cases::{lent, Case};
use super::picture::{Style, Writer};
use crate::decoder::file::{Direction, Header, PictureType};
use crate::decoder::size::Size;
use crate::decoder::vectors::{f_of, fits, Vector, Vectors};
use crate::random::Random;

/// What a macroblock has in one direction.
#[derive(Clone, Copy, Debug, PartialEq, Eq, PartialOrd, Ord)]
pub enum Fit {
    /// No vector is coded or repeated; a P-picture then uses vector 0, which always fits.
    Unused,
    Fits,
    Outside,
}

/// Which vectors of a macroblock record fit. Each pair is forward, then backward.
#[derive(Clone, Debug, PartialEq, Eq, PartialOrd, Ord)]
pub struct Arrangement {
    pub picture_type: PictureType,
    pub full_pel: [bool; 2],
    /// By address.
    pub skipped: Vec<[Fit; 2]>,
    pub own: [Fit; 2],
    pub intra: bool,
    /// At some macroblock, in a direction that it doesn't use, the past before the record doesn't fit.
    pub past_outside: bool,
}

const MOST_SKIPPED: usize = 2;

/// Every arrangement that a record of a P- or B-picture with at most two skipped macroblocks can have. What it can't have:
///
/// - P-pictures have no backward vector, and their skipped macroblocks repeat no vector.
/// - In B-pictures, skipped macroblocks repeat the last one, so they all use the same directions, and at least one: after intra
///   and at a slice's start, nothing can be skipped. A macroblock without a vector is intra.
/// - If every macroblock uses every direction of the picture's type, no past is unused.
///
/// All others are possible at some site; `compare_misfits::misfits` checks that they occur.
pub fn all_arrangements() -> Vec<Arrangement> {
    let counts = 0..=MOST_SKIPPED;
    let fitting = counts.flat_map(|count| [p_arrangements(count), b_arrangements(count)].concat());
    fitting.flat_map(Arrangement::with_each_past).collect()
}

fn p_arrangements(skipped: usize) -> Vec<Arrangement> {
    let owns = [
        (Fit::Unused, true),
        (Fit::Unused, false),
        (Fit::Fits, false),
        (Fit::Outside, false),
    ];
    let arrangement = |(forward, intra), full_pel| Arrangement {
        picture_type: PictureType::P,
        full_pel: [full_pel, false],
        skipped: vec![[Fit::Unused; 2]; skipped],
        own: [forward, Fit::Unused],
        intra,
        past_outside: false,
    };
    let each_flag = |own| [false, true].map(|full_pel| arrangement(own, full_pel));
    owns.into_iter().flat_map(each_flag).collect()
}

fn b_arrangements(skipped: usize) -> Vec<Arrangement> {
    let mut arrangements = Vec::new();
    for [forward, backward] in pairs(&repetitions(skipped)) {
        let skipped: Vec<_> = (0..skipped).map(|k| [forward[k], backward[k]]).collect();
        if skipped.contains(&[Fit::Unused; 2]) {
            continue;
        }
        for own in pairs(&[Fit::Unused, Fit::Fits, Fit::Outside]) {
            arrangements.extend(pairs(&[false, true]).map(|full_pel| Arrangement {
                picture_type: PictureType::B,
                full_pel,
                skipped: skipped.clone(),
                own,
                intra: own == [Fit::Unused; 2],
                past_outside: false,
            }));
        }
    }
    arrangements
}

/// What `count` skipped macroblocks can have in a direction: all of them use it, or none.
fn repetitions(count: usize) -> Vec<Vec<Fit>> {
    let mut used = vec![Vec::new()];
    for _ in 0..count {
        let longer =
            |fits: &Vec<Fit>| [Fit::Fits, Fit::Outside].map(|next| [&fits[..], &[next]].concat());
        used = used.iter().flat_map(longer).collect();
    }
    if count > 0 {
        used.push(vec![Fit::Unused; count]);
    }
    used
}

/// Each item with each.
fn pairs<T: Clone>(items: &[T]) -> impl Iterator<Item = [T; 2]> + '_ {
    let with_each = move |first: &'_ T| {
        let first = first.clone();
        let pair = move |second: &T| [first.clone(), second.clone()];
        items.iter().map(pair)
    };
    items.iter().flat_map(with_each)
}

impl Arrangement {
    /// The macroblocks of the record: the skipped ones, then its own.
    pub fn macroblocks(&self) -> impl Iterator<Item = [Fit; 2]> + '_ {
        self.skipped.iter().copied().chain([self.own])
    }

    /// True if a vector doesn't fit, so that the record is refused.
    pub fn has_misfit(&self) -> bool {
        self.macroblocks().flatten().any(|fit| fit == Fit::Outside)
    }

    /// This arrangement and, where a direction is not used, also one with a past that doesn't fit.
    fn with_each_past(self) -> Vec<Arrangement> {
        let uses = self.picture_type.uses();
        let unused = |fits: [Fit; 2]| (0..2).any(|way| uses[way] && fits[way] == Fit::Unused);
        let mut arrangements = vec![self.clone()];
        if self.macroblocks().any(unused) {
            arrangements.push(Arrangement {
                past_outside: true,
                ..self
            });
        }
        arrangements
    }

    /// Whether the macroblock before the record uses a direction.
    fn last_uses(&self, way: usize) -> bool {
        match (self.picture_type, self.skipped.first()) {
            (PictureType::B, Some(repeated)) => repeated[way] != Fit::Unused,
            (picture_type, _) => picture_type.uses()[way],
        }
    }

    /// Whether this past doesn't fit at some macroblock that doesn't use the direction. `None` if a skipped macroblock that
    /// repeats it would fit where the arrangement says it doesn't, or the reverse.
    fn outside_where_unused(&self, site: Site, way: usize, past: Vector) -> Option<bool> {
        let mut outside = false;
        for (index, fit) in self.macroblocks().enumerate() {
            let past_fits = fits(site.size, site.last + 1 + index, past);
            let is_own = index == self.skipped.len();
            match fit[way] {
                Fit::Unused => outside |= !past_fits,
                wanted if !is_own && past_fits != (wanted == Fit::Fits) => return None,
                _ => (),
            }
        }
        Some(outside)
    }
}

/// Where a record stands: in a picture of this size, after the macroblock with address `last`.
#[derive(Clone, Copy)]
struct Site {
    size: Size,
    last: usize,
}

const SIZES: [[usize; 2]; 6] = [[1, 5], [2, 3], [3, 2], [5, 1], [4, 3], [2, 5]];

/// The sites with room for a record that skips this many macroblocks.
fn sites(skipped: usize) -> Vec<Site> {
    let sizes = SIZES.map(|[width, height]| Size { width, height });
    let lasts = |size: Size| 0..size.macroblocks() - skipped - 1;
    let sites = |size: Size| lasts(size).map(move |last| Site { size, last });
    sizes.into_iter().flat_map(sites).collect()
}

/// The vectors of a direction as they are used, if they are: of the macroblock before the last one, of the last one, and the record's
/// own.
#[derive(Clone, Copy, Default)]
struct Motion {
    before_last: Option<Vector>,
    last: Option<Vector>,
    own: Option<Vector>,
}

/// A picture for each arrangement, at random sites and with random vectors.
pub fn misfit_cases(seed: u64) -> Vec<Case> {
    let numbered = (0..).zip(all_arrangements());
    let case = |(number, arrangement): (u64, Arrangement)| {
        let random = &mut Random::new(&[seed, number, 9]);
        let sites = rotated(random, &sites(arrangement.skipped.len()));
        let chosen = sites.into_iter().find_map(|site| {
            let motions = motions(random, &arrangement, site)?;
            Some((site, motions))
        });
        let (site, motions) = chosen.expect("each arrangement is possible at some site");
        written(random, &arrangement, site, motions)
    };
    numbered.map(case).collect()
}

/// The items, from a random one on.
fn rotated<T: Copy>(random: &mut Random, items: &[T]) -> Vec<T> {
    let (before, from) = items.split_at(random.below(items.len()));
    [from, before].concat()
}

/// Random vectors that make the arrangement at this site, if there are any.
fn motions(random: &mut Random, arrangement: &Arrangement, site: Site) -> Option<[Motion; 2]> {
    let pasts_outside: &[[bool; 2]] = if arrangement.past_outside {
        &[[true, false], [false, true], [true, true]]
    } else {
        &[[false, false]]
    };
    let each = rotated(random, pasts_outside);
    each.into_iter().find_map(|[forward, backward]| {
        let forward = motion(random, arrangement, site, 0, forward)?;
        let backward = motion(random, arrangement, site, 1, backward)?;
        Some([forward, backward])
    })
}

/// The same for one direction; `past_outside` is about that direction alone.
fn motion(
    random: &mut Random,
    arrangement: &Arrangement,
    site: Site,
    way: usize,
    past_outside: bool,
) -> Option<Motion> {
    if !arrangement.picture_type.uses()[way] {
        return (!past_outside).then(Motion::default);
    }
    let vectors = vectors_at_edges(site.size, arrangement.full_pel[way]);
    let last_uses = arrangement.last_uses(way);
    // The macroblock whose vector the past is; without one, the past is 0.
    let set_at = match last_uses {
        true => Some(site.last),
        false => site.last.checked_sub(1),
    };
    let past = pick(random, &vectors, |past| {
        let set = set_at.is_some_and(|address| fits(site.size, address, past));
        let outside = arrangement.outside_where_unused(site, way, past);
        (set || past == [0, 0]) && outside == Some(past_outside)
    })?;
    let own_address = site.last + arrangement.skipped.len() + 1;
    let own = match arrangement.own[way] {
        Fit::Unused => None,
        fit => Some(pick(random, &vectors, |own| {
            fits(site.size, own_address, own) == (fit == Fit::Fits)
        })?),
    };
    Some(Motion {
        before_last: (!last_uses && past != [0, 0]).then_some(past),
        last: last_uses.then_some(past),
        own,
    })
}

/// Vectors that reach the edge of the picture from some macroblock, or just don't.
fn vectors_at_edges(size: Size, full_pel: bool) -> Vec<Vector> {
    let along = |extent: usize| {
        let macroblocks = -(extent as i64)..=extent as i64;
        let around = macroblocks.flat_map(|count| (-2..=2).map(move |more| 32 * count + more));
        around.filter(|part| !full_pel || part % 2 == 0)
    };
    let rows = |right| along(size.height).map(move |down| [right, down]);
    along(size.width).flat_map(rows).collect()
}

/// A random one of the vectors that are wanted.
fn pick(
    random: &mut Random,
    vectors: &[Vector],
    wanted: impl Fn(Vector) -> bool,
) -> Option<Vector> {
    let mut found = vectors.to_vec();
    found.retain(|vector| wanted(*vector));
    (!found.is_empty()).then(|| random.pick(&found))
}

/// How the macroblocks around the record are written. None is skipped, so that those before the record's slice end where it starts.
const STYLE: Style = Style {
    most_skipped: 0,
    ..Style::SMALL
};

/// The picture: random macroblocks, then a slice with those of the motion, then random ones again.
fn written(
    random: &mut Random,
    arrangement: &Arrangement,
    site: Site,
    motions: [Motion; 2],
) -> Case {
    let header = header(random, arrangement, site.size, motions);
    let vectors = |of: fn(Motion) -> Option<Vector>| coded(header, motions.map(of));
    let before_last = vectors(|motion| motion.before_last);
    let mut writer = Writer::new(random, header, STYLE);
    // The pasts are 0 where the slice of these macroblocks starts.
    let start = site.last - usize::from(before_last != [None; 2]);
    if start > 0 {
        writer.slice_record();
    }
    while writer.next < start {
        writer.macroblock();
    }
    writer.slice_record();
    if before_last != [None; 2] {
        writer.macroblock_with(0, before_last, false);
    }
    writer.macroblock_with(0, vectors(|motion| motion.last), false);
    let skipped = arrangement.skipped.len();
    writer.macroblock_with(skipped, vectors(|motion| motion.own), arrangement.intra);
    while !writer.whole() {
        writer.macroblock();
    }
    let file = writer.file;
    Case {
        legal: !arrangement.has_misfit(),
        ..lent(random, header, &file)
    }
}

/// A header whose f_codes can code the vectors.
fn header(
    random: &mut Random,
    arrangement: &Arrangement,
    size: Size,
    motions: [Motion; 2],
) -> Header {
    let picture_type = arrangement.picture_type;
    let directions = std::array::from_fn(|way| {
        if picture_type.uses()[way] {
            direction(random, arrangement.full_pel[way], motions[way])
        } else {
            Direction {
                full_pel: false,
                f_code: 0,
            }
        }
    });
    Header {
        size,
        picture_type,
        directions,
    }
}

fn direction(random: &mut Random, full_pel: bool, motion: Motion) -> Direction {
    let used = [motion.before_last, motion.last, motion.own];
    let coded = used
        .into_iter()
        .flatten()
        .map(|vector| halved(vector, full_pel));
    let parts: Vec<i64> = coded.flatten().collect();
    let can_code = |f_code: &i64| {
        let f = f_of(*f_code);
        parts.iter().all(|part| (-16 * f..16 * f).contains(part))
    };
    let f_codes: Vec<i64> = (1..=7).filter(can_code).collect();
    Direction {
        full_pel,
        f_code: random.pick(&f_codes),
    }
}

/// Vectors as their codes give them: halved where the full-pel flag doubles them.
fn coded(header: Header, used: Vectors) -> Vectors {
    let coded = |way: usize| Some(halved(used[way]?, header.directions[way].full_pel));
    [coded(0), coded(1)]
}

fn halved(vector: Vector, full_pel: bool) -> Vector {
    let factor = if full_pel { 2 } else { 1 };
    vector.map(|part| part / factor)
}
