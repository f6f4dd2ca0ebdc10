// What the multiplication of shared values costs when it is written by hand in plain Rust: three miners in one process, the same draws, messages and blocks of
// 512 elements as crates/multiply, without types for parties and rings, without refusals and without proofs. The first word is how many elements, the second
// how often they are multiplied by the second factor, one after another. With `shares` as third word it only makes the shares; with another one the tapes are
// those of this tape file, read where they are drawn. `bench/multiply.sh` and `bench/programs_on_shares.sh` build it with `rustc -O`.
#[path = "tape_by_hand.rs"]
mod tape_by_hand;

use std::time::Instant;
use tape_by_hand::Tapes;

const BLOCK: usize = 512;

fn spread(k: u64) -> u64 {
    k.wrapping_mul(0x9E37_79B9_7F4A_7C15).rotate_left(17)
}

fn words(count: usize, step: u64, party: u64) -> Vec<u64> {
    (0..count as u64).map(|at| spread(step.wrapping_mul(at).wrapping_add(party))).collect()
}

struct Miner {
    u: Vec<u64>,
    v: Vec<u64>,
    product: Vec<u64>,
}

// What a miner has masked anew: its own words and mask, less the previous miner's mask.
fn masked(own: &[u64], mask: &[u64], previous: &[u64], out: &mut Vec<u64>) {
    for k in 0..own.len() {
        out.push(own[k].wrapping_add(mask[k]).wrapping_sub(previous[k]));
    }
}

fn factors(miner: &Miner, from: usize, to: usize, masks: &[u64], got: &[u64]) -> Vec<u64> {
    let n = to - from;
    let mut message = Vec::with_capacity(2 * n);
    masked(&miner.u[from..to], &masks[..n], &got[..n], &mut message);
    masked(&miner.v[from..to], &masks[n..2 * n], &got[n..2 * n], &mut message);
    message
}

fn multiply(miner: &mut Miner, masks: &[u64], previous_masks: &[u64], own: &[u64], got: &[u64]) {
    let n = own.len() / 2;
    for k in 0..n {
        let (u, v, up, vp) = (own[k], own[n + k], got[k], got[n + k]);
        let cross = u.wrapping_mul(v).wrapping_add(u.wrapping_mul(vp)).wrapping_add(up.wrapping_mul(v));
        miner.product.push(cross.wrapping_add(masks[2 * n + k]).wrapping_sub(previous_masks[2 * n + k]));
    }
}

// Each miner's first factor becomes its share of the product.
fn multiply_all(miners: &mut [Miner], tapes: &mut Tapes) {
    let n = miners[0].u.len();
    for from in (0..n).step_by(BLOCK) {
        let to = n.min(from + BLOCK);
        let first = [0, 1, 2].map(|i| tapes.draw(i, 3 * (to - from)));
        let second: Vec<Vec<u64>> = (0..3).map(|i| factors(&miners[i], from, to, &first[i], &first[(i + 2) % 3])).collect();
        for i in 0..3 {
            let p = (i + 2) % 3;
            multiply(&mut miners[i], &first[i], &first[p], &second[i], &second[p]);
        }
    }
    for miner in miners {
        miner.u = std::mem::replace(&mut miner.product, Vec::with_capacity(n));
    }
}

fn main() {
    let word = |at: usize| std::env::args().nth(at);
    let number = |at: usize, else_: usize| word(at).and_then(|it| it.parse().ok()).unwrap_or(else_);
    let (n, times) = (number(1, 1 << 20), number(2, 1));
    let mut miners: Vec<Miner> =
        (0..3).map(|party| Miner { u: words(n, 7, party), v: words(n, 11, party), product: Vec::with_capacity(n) }).collect();
    let of = word(3);
    if of.as_deref() == Some("shares") {
        println!("shares {}", miners.iter().map(|miner| miner.u.len() + miner.v.len()).sum::<usize>());
        return;
    }
    let mut tapes = match of {
        None => Tapes::held([0, 1, 2].map(|party| words(3 * n * times, 3, party))),
        Some(path) => Tapes::of_file(&path),
    };
    let sum = |miners: &[Miner], of: &dyn Fn(&Miner) -> u64| miners.iter().map(of).fold(0u64, u64::wrapping_add);
    let wanted: Vec<u64> = (0..n)
        .map(|k| (0..times).fold(sum(&miners, &|m| m.u[k]), |u, _| u.wrapping_mul(sum(&miners, &|m| m.v[k]))))
        .collect();
    let start = Instant::now();
    for _ in 0..times {
        multiply_all(&mut miners, &mut tapes);
    }
    let took = start.elapsed();
    let wrong = (0..n).filter(|&k| sum(&miners, &|m| m.u[k]) != wanted[k]).count();
    println!("elements {n} wrong {wrong}");
    println!("nanoseconds {}", took.as_nanos());
}
