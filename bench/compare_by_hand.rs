// What the comparison of shared numbers costs when it is written by hand in plain Rust: three miners in one process, the same plan of gates, draws, messages
// and blocks of 512 elements as `secrec run` has for `a < b`, without types for parties and rings, without refusals and without proofs.
// `bench/programs_on_shares.sh` builds it with `rustc -O`. With `shares` it only makes the shares; with another second word the tapes are those of
// this tape file, read where they are drawn.
#[path = "tape_by_hand.rs"]
mod tape_by_hand;

use std::time::Instant;
use tape_by_hand::Tapes;

const BLOCK: usize = 512;
const WIDTHS: [u32; 6] = [1, 2, 4, 8, 16, 32];

// A value: the shares of the three miners.
type Shared = [Vec<u64>; 3];

fn spread(k: u64) -> u64 {
    k.wrapping_mul(0x9E37_79B9_7F4A_7C15).rotate_left(17)
}

fn words(count: usize, step: u64, party: u64) -> Vec<u64> {
    (0..count as u64).map(|at| spread(step.wrapping_mul(at).wrapping_add(party))).collect()
}

fn each(a: &Shared, of: impl Fn(u64) -> u64) -> Shared {
    [0, 1, 2].map(|i| a[i].iter().map(|&word| of(word)).collect())
}

fn xor(a: &Shared, b: &Shared) -> Shared {
    [0, 1, 2].map(|i| a[i].iter().zip(&b[i]).map(|(x, y)| x ^ y).collect())
}

fn not(a: &Shared) -> Shared {
    [a[0].iter().map(|word| !word).collect(), a[1].clone(), a[2].clone()]
}

fn cat(a: &Shared, b: &Shared) -> Shared {
    [0, 1, 2].map(|i| a[i].iter().chain(&b[i]).copied().collect())
}

fn part(a: &Shared, from: usize, to: usize) -> Shared {
    [0, 1, 2].map(|i| a[i][from..to].to_vec())
}

// What a miner sends of a factor: its own words and mask, and the previous miner's mask.
fn masked(own: &[u64], mask: &[u64], previous: &[u64], out: &mut Vec<u64>) {
    for k in 0..own.len() {
        out.push(own[k] ^ mask[k] ^ previous[k]);
    }
}

fn and(tapes: &mut Tapes, a: &Shared, b: &Shared) -> Shared {
    let size = a[0].len();
    let mut product: Shared = [0, 1, 2].map(|_| Vec::with_capacity(size));
    for from in (0..size).step_by(BLOCK) {
        let to = size.min(from + BLOCK);
        let n = to - from;
        let masks = [0, 1, 2].map(|i| tapes.draw(i, 3 * n));
        let factors = [0, 1, 2].map(|i| {
            let got = &masks[(i + 2) % 3];
            let mut message = Vec::with_capacity(2 * n);
            masked(&a[i][from..to], &masks[i][..n], &got[..n], &mut message);
            masked(&b[i][from..to], &masks[i][n..2 * n], &got[n..2 * n], &mut message);
            message
        });
        for i in 0..3 {
            let p = (i + 2) % 3;
            for k in 0..n {
                let (u, v, up, vp) = (factors[i][k], factors[i][n + k], factors[p][k], factors[p][n + k]);
                product[i].push((u & v) ^ (u & vp) ^ (up & v) ^ masks[i][2 * n + k] ^ masks[p][2 * n + k]);
            }
        }
    }
    product
}

// A number shared additively becomes two words, shared by xor, whose sum it is: the one is miner 2's, the other miner 3's.
fn split(tapes: &mut Tapes, u: &Shared) -> (Shared, Shared) {
    let size = u[0].len();
    let zeros = || vec![0; size];
    let (mut first, mut second) = (Vec::with_capacity(size), Vec::with_capacity(size));
    for from in (0..size).step_by(BLOCK) {
        let to = size.min(from + BLOCK);
        let to_second = tapes.draw(0, to - from);
        let to_third: Vec<u64> = (from..to).map(|k| u[0][k].wrapping_sub(to_second[k - from])).collect();
        first.extend((from..to).map(|k| u[1][k].wrapping_add(to_second[k - from])));
        second.extend((from..to).map(|k| u[2][k].wrapping_add(to_third[k - from])));
    }
    ([zeros(), first, zeros()], [zeros(), zeros(), second])
}

// The bits of numbers: a prefix adder over the two words that add up to each.
fn bits(tapes: &mut Tapes, u: &Shared) -> Shared {
    let n = u[0].len();
    let (x, y) = split(tapes, u);
    let mut generate = and(tapes, &x, &y);
    let sum = xor(&x, &y);
    let mut propagate = sum.clone();
    for width in WIDTHS {
        let below = cat(&each(&generate, |word| word << width), &each(&propagate, |word| word << width));
        let both = and(tapes, &cat(&propagate, &propagate), &below);
        generate = xor(&generate, &part(&both, 0, n));
        propagate = part(&both, n, 2 * n);
    }
    xor(&sum, &each(&generate, |word| word << 1))
}

// Whether each number of the first is less than that of the second.
fn less(tapes: &mut Tapes, u: &Shared, v: &Shared) -> Shared {
    let n = u[0].len();
    let all = bits(tapes, &cat(u, v));
    let (a, b) = (part(&all, 0, n), part(&all, n, 2 * n));
    let mut lower = and(tapes, &b, &not(&a));
    let mut same = not(&xor(&a, &b));
    for width in WIDTHS {
        let above = each(&same, |word| word >> width);
        let both = and(tapes, &cat(&above, &above), &cat(&lower, &same));
        lower = xor(&each(&lower, |word| word >> width), &part(&both, 0, n));
        same = part(&both, n, 2 * n);
    }
    each(&lower, |word| word & 1)
}

fn main() {
    let n: usize = std::env::args().nth(1).and_then(|word| word.parse().ok()).unwrap_or(1 << 16);
    let u: Shared = [0, 1, 2].map(|party| words(n, 7, party));
    let v: Shared = [0, 1, 2].map(|party| words(n, 11, party));
    let counts = [119 * n, 117 * n, 117 * n];
    let of = std::env::args().nth(2);
    if of.as_deref() == Some("shares") {
        println!("shares {}", 3 * (u[0].len() + v[0].len()));
        return;
    }
    let mut tapes = match of {
        None => Tapes::held([0, 1, 2].map(|party| words(counts[party], 3, party as u64))),
        Some(path) => Tapes::of_file(&path),
    };
    let start = Instant::now();
    let result = less(&mut tapes, &u, &v);
    let took = start.elapsed();
    let sum = |of: &Shared, k: usize| of.iter().fold(0u64, |all, share| all.wrapping_add(share[k]));
    let wrong = (0..n).filter(|&k| (result[0][k] ^ result[1][k] ^ result[2][k] == 1) != (sum(&u, k) < sum(&v, k))).count();
    if let Tapes::Held { drawn, .. } = &tapes {
        assert!(*drawn == counts);
    }
    println!("elements {n} wrong {wrong}");
    println!("nanoseconds {}", took.as_nanos());
}
