//! The recipes: a shape with its measures, by name. Small ones have 3 to 10 keys and are made by the thousand,
//! `medium` has 27, full ones come near document 01's limits of 64 keys, 128 delegations and 64 revocations.
use crate::{
    rng::Rng,
    shapes::{self, Society},
    store::Store,
};

#[derive(Clone, Copy, Debug, PartialEq, Eq)]
pub enum Size {
    Small,
    Medium,
    Full,
}

#[derive(Clone, Copy)]
pub struct Recipe {
    pub name: &'static str,
    pub size: Size,
    shape: fn(&mut Rng) -> Store,
}

const MOST_KEYS: usize = 64;
const MOST_SMALL_KEYS: usize = 10;

const fn recipe(name: &'static str, size: Size, shape: fn(&mut Rng) -> Store) -> Recipe {
    Recipe { name, size, shape }
}

pub const RECIPES: [Recipe; 16] = [
    recipe("uniform", Size::Small, uniform),
    recipe("grounded", Size::Small, grounded),
    recipe("nested", Size::Small, nested),
    recipe("s9", Size::Small, s9),
    recipe("ring", Size::Small, ring),
    recipe("chain", Size::Small, chain),
    recipe("cross", Size::Small, cross),
    recipe("knot", Size::Small, knot),
    recipe("medium", Size::Medium, medium),
    recipe("full-uniform", Size::Full, full_uniform),
    recipe("full-nested", Size::Full, full_nested),
    recipe("full-s9", Size::Full, full_s9),
    recipe("full-chain", Size::Full, full_chain),
    recipe("full-cross", Size::Full, full_cross),
    recipe("full-ring", Size::Full, full_ring),
    recipe("full-knot", Size::Full, full_knot),
];

/// The recipe with this name, or all of a size: `small`, `medium`, `full`.
pub fn chosen(word: &str) -> Option<Vec<Recipe>> {
    let of = |size: Size| RECIPES.into_iter().filter(|r| r.size == size).collect();
    match word {
        "small" => Some(of(Size::Small)),
        "medium" => Some(of(Size::Medium)),
        "full" => Some(of(Size::Full)),
        name => Some(vec![RECIPES.into_iter().find(|r| r.name == name)?]),
    }
}

/// The seed of the i-th store of a run: runs of up to a million with other seeds share none.
pub fn case(seed: u64, i: u64) -> u64 {
    seed.wrapping_mul(1_000_003).wrapping_add(i)
}

impl Recipe {
    /// The store of a seed: of those that the shape gives, the first with as many keys as the size allows.
    pub fn make(&self, seed: u64) -> Store {
        let mut r = Rng::new(seed);
        let most = if self.size == Size::Small { MOST_SMALL_KEYS } else { MOST_KEYS };
        loop {
            let s = (self.shape)(&mut r);
            if s.keys <= most {
                return s;
            }
        }
    }
}

fn uniform(r: &mut Rng) -> Store {
    let keys = r.range(3, 10);
    let delegations = r.range(1, 4 * keys);
    let revocations = r.below(delegations + 2);
    shapes::uniform(r, keys, delegations, revocations)
}

fn some_society(r: &mut Rng, documents: usize, groups: usize, people: usize) -> Store {
    let delegations = r.range(2, 24);
    let measures = Society {
        documents,
        groups,
        people,
        delegations,
        revocations: r.range(0, delegations.min(12)),
        grounded: r.pick(&[70, 95, 100]),
        root: r.pick(&[10, 30, 60]),
        ranks: r.pick(&[[1, 1, 1, 1], [1, 2, 3, 6], [1, 1, 4, 4], [2, 3, 4, 1]]),
        revoker_stands: r.pick(&[50, 80, 100]),
        repeated: r.pick(&[0, 10, 30]),
    };
    shapes::society(r, &measures)
}

fn grounded(r: &mut Rng) -> Store {
    let (documents, groups, people) = (r.range(0, 2), r.range(1, 3), r.range(2, 5));
    some_society(r, documents, groups, people)
}

fn nested(r: &mut Rng) -> Store {
    let (groups, people) = (r.range(2, 5), r.range(1, 4));
    some_society(r, 1, groups, people)
}

fn s9(r: &mut Rng) -> Store {
    let (gadgets, noise) = (r.range(1, 3), r.below(4));
    shapes::s9(r, gadgets, noise)
}

fn ring(r: &mut Rng) -> Store {
    let (groups, people) = (r.range(2, 4), r.range(2, 4));
    let (extra, revocations) = (r.range(1, 8), r.range(1, 8));
    shapes::ring(r, groups, people, extra, revocations)
}

fn chain(r: &mut Rng) -> Store {
    let (links, revokers) = (r.range(2, 5), r.range(1, 3));
    let (decoys, stairs) = (r.below(3), r.chance(70));
    shapes::chain(r, links, revokers, decoys, stairs)
}

fn cross(r: &mut Rng) -> Store {
    let (revokers, holders, edges) = (r.range(2, 4), r.range(2, 5), r.range(2, 10));
    shapes::cross(r, revokers, holders, edges)
}

fn knot(r: &mut Rng) -> Store {
    let (rings, length) = r.pick(&[(1, 2), (1, 3), (1, 4), (2, 2)]);
    let noise = r.below(4);
    shapes::knot(r, rings, length, noise)
}

fn large_society(r: &mut Rng, documents: usize, groups: usize, people: usize) -> Society {
    Society {
        documents,
        groups,
        people,
        delegations: 128,
        revocations: 64,
        grounded: 95,
        root: r.pick(&[15, 35, 55]),
        ranks: r.pick(&[[1, 1, 1, 1], [1, 2, 3, 6], [1, 1, 4, 4]]),
        revoker_stands: r.pick(&[60, 90]),
        repeated: 5,
    }
}

fn medium(r: &mut Rng) -> Store {
    let society = large_society(r, 3, 8, 16);
    let (delegations, revocations) = (r.range(40, 80), r.range(5, 30));
    shapes::society(r, &Society { delegations, revocations, ..society })
}

fn full_uniform(r: &mut Rng) -> Store {
    shapes::uniform(r, 64, 128, 64)
}

fn full_nested(r: &mut Rng) -> Store {
    let documents = r.range(1, 6);
    let society = large_society(r, documents, 20, 44 - documents);
    shapes::society(r, &society)
}

fn full_s9(r: &mut Rng) -> Store {
    shapes::s9(r, 16, 40)
}

fn full_chain(r: &mut Rng) -> Store {
    let revokers = r.range(1, 20);
    let links = r.range(10, 62 - revokers);
    let stairs = r.chance(60);
    shapes::chain(r, links, revokers, 64 - links, stairs)
}

fn full_cross(r: &mut Rng) -> Store {
    let revokers = r.range(3, 24);
    shapes::cross(r, revokers, 63 - revokers, 80)
}

fn full_ring(r: &mut Rng) -> Store {
    shapes::ring(r, 20, 43, 60, 64)
}

fn full_knot(r: &mut Rng) -> Store {
    let length = r.range(2, 6);
    shapes::knot(r, 30 / length, length, 30)
}
