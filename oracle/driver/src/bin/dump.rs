//! dump RECIPE COUNT SEED BLOCKS: COUNT stores of a recipe (or of each of a size, as fuzz has it) with BLOCKS
//! blocks of the published State's answers each, in the form of VECTORS.md, to standard output.
use oracle::{
    published::keys,
    recipes::{case, chosen},
    text,
};
use std::{
    io::{stdout, Write},
    process::exit,
};

fn main() {
    let args: Vec<String> = std::env::args().skip(1).collect();
    let [recipe, numbers @ ..] = args.as_slice() else {
        eprintln!("dump RECIPE COUNT SEED BLOCKS");
        exit(2);
    };
    let recipes = chosen(recipe).expect("a recipe");
    let numbers: Vec<u64> = numbers.iter().map(|n| n.parse().expect("a number")).collect();
    let [count, seed, blocks] = numbers[..] else { panic!("COUNT SEED BLOCKS") };
    let pool = keys(seed ^ 0x900d, 65);
    let mut out = stdout().lock();
    for recipe in recipes {
        for i in 0..count {
            let seed = case(seed, i);
            let name = format!("{}-{seed}", recipe.name);
            let text = text::store(&name, &recipe.make(seed), &pool, seed, blocks as usize);
            if out.write_all(text.as_bytes()).is_err() {
                return; // the reader has gone
            }
        }
    }
}
