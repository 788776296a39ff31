//! The rule of least_reloads as a plain program, with no proof: draws a million accesses to 100,000 pages, plans them for so many
//! frames, checks the plan, and prints how many loads it makes.
use std::collections::{BTreeMap, HashMap, HashSet};

#[derive(Clone, Copy, PartialEq, Eq, Hash)]
struct Page {
    enclave: u16,
    number: u32,
}

struct Step {
    out: Vec<Page>,
    load: Vec<Page>,
}

fn drawn(count: usize, pages: u32) -> Vec<Page> {
    let mut seed = 1u64;
    let mut accesses = Vec::new();
    for _ in 0..count {
        seed = seed.wrapping_mul(6364136223846793005).wrapping_add(1442695040888963407);
        let n = (seed >> 33) as u32 % pages;
        accesses.push(Page { enclave: 1 + (n % 2) as u16, number: n / 2 });
    }
    accesses
}

fn next_uses(accesses: &[Page]) -> Vec<usize> {
    let mut later = HashMap::new();
    let mut uses = vec![0; accesses.len()];
    for i in (0..accesses.len()).rev() {
        uses[i] = later.insert(accesses[i], i).unwrap_or(accesses.len() + i);
    }
    uses
}

fn plan(accesses: &[Page], frames: usize) -> (Vec<Step>, usize) {
    let uses = next_uses(accesses);
    let mut held: BTreeMap<usize, Page> = BTreeMap::new();
    let mut steps = Vec::with_capacity(accesses.len());
    let mut loads = 0;
    for (i, page) in accesses.iter().enumerate() {
        let mut step = Step { out: vec![], load: vec![] };
        if held.remove(&i).is_none() {
            if held.len() == frames {
                step.out.push(held.pop_last().unwrap().1);
            }
            step.load.push(*page);
            loads += 1;
        }
        held.insert(uses[i], *page);
        steps.push(step);
    }
    (steps, loads)
}

fn check(accesses: &[Page], frames: usize, steps: &[Step], loads: usize) -> bool {
    let mut held = HashSet::new();
    steps.len() == accesses.len()
        && steps.iter().map(|step| step.load.len()).sum::<usize>() == loads
        && steps.iter().zip(accesses).all(|(step, page)| {
            step.out.iter().all(|page| held.remove(page))
                && step.load.iter().all(|page| held.insert(*page))
                && held.len() <= frames
                && held.contains(page)
        })
}

fn main() {
    let frames = std::env::args().nth(1).expect("a number of frames").parse().expect("a number of frames");
    let accesses = drawn(1_000_000, 100_000);
    let (steps, loads) = plan(&accesses, frames);
    assert!(check(&accesses, frames, &steps, loads));
    println!("{loads}");
}
