//! Prints AES-128 encryptions to be compared with an outside one: of this implementation, and of the
//! proved library as far as its C interface shows them. A line is a source, a key, blocks, and what
//! the source says they are encrypted to; `offset` has the last bit set to 1, and the rows of half-gates
//! show the sum of two encrypted blocks (01, Tokens; Scheme 3; 02, jobs 4 and 7).

#[path = "../archive.rs"]
mod archive;

use std::{env, process};

use second::aes::Key;
use second::block::{Block, BLOCK};
use second::call::{Call, Operation};
use second::cipher::FIXED_KEY;
use second::circuit::{to_bytes, Gate};
use second::generate::{add_run, call_on, circuit, seed};
use second::hex::text;
use second::random::Random;
use second::scheme::{half_gate_bits, Scheme};
use second::token::run_block;

/// A line of this implementation: any key, any blocks.
fn second_line(random: &mut Random) -> String {
    let key = Block::list(&seed(random))[0].0;
    let blocks = random.bytes(5 * BLOCK);
    let encrypted = Block::list(&blocks).into_iter();
    let encrypted = encrypted.flat_map(|block| Key::expand(&key).encrypt(block).0);
    let encrypted: Vec<u8> = encrypted.collect();
    format!(
        "second {} {} {}",
        text(&key),
        text(&blocks),
        text(&encrypted)
    )
}

/// The output buffers of a call that the archive does not refuse.
fn archive_buffers(call: &Call) -> Vec<Vec<u8>> {
    let answer = archive::run(call, &call.buffers(), 0);
    let answer = answer.expect("nothing written beside the buffers");
    assert_eq!(answer.number, 0, "a sound call");
    answer.buffers
}

/// Lines of garble, in any run: under the seed, the run's block of number i is the zero token of input
/// i, and that of number 0 is R.
fn seed_lines(random: &mut Random) -> String {
    let inputs = random.between(2, 9);
    let bytes = circuit(random, inputs as u16, 3, 50);
    let mut call = call_on(random, Operation::Garble, &bytes);
    add_run(random, &mut call);
    let buffers = archive_buffers(&call);
    let block = |number| run_block(call.run, number).0;
    let numbers: Vec<u8> = (1..=inputs).flat_map(block).collect();
    let zeros = &buffers[1][..BLOCK * inputs];
    let offset = Block::list(zeros)[0] ^ Block::list(&buffers[2])[0];
    let key = text(&call.seed);
    let blocks = format!("seed {key} {} {}", text(&numbers), text(zeros));
    format!(
        "{blocks}\noffset {key} {} {}",
        text(&block(0)),
        text(&offset.0)
    )
}

/// A line of evaluate: under scheme 1 the token of a gate is π(K) ⊕ K ⊕ its row, for any two tokens,
/// with K = 2A ⊕ 4B ⊕ T; so π of any block is seen.
fn pi_line(random: &mut Random) -> String {
    let bytes = circuit(random, 2, 1, 100);
    let mut call = call_on(random, Operation::Evaluate, &bytes);
    while call.material[2] != 1 {
        call = call_on(random, Operation::Evaluate, &bytes);
    }
    let held = Block::list(&call.tokens);
    let row = 2 * usize::from(held[0].colour().0) + usize::from(held[1].colour().0);
    let sealed = Block::list(&call.material[9 + 4..])[row];
    let k = held[0].double() ^ held[1].double_twice() ^ Block::number(4 * 3 + row);
    let token = Block::list(&archive_buffers(&call)[0])[2];
    let encrypted = token ^ k ^ sealed;
    let key = text(&FIXED_KEY.0);
    format!("pi {key} {} {}", text(&k.0), text(&encrypted.0))
}

/// A circuit whose last gate is charged and on any wire, and that gate. Its operands are inputs.
fn charged_last(random: &mut Random) -> (Vec<u8>, usize, Gate) {
    let between = random.one_of(&[0, 0, 250, 33_000, 65_532]);
    let mut gates = vec![
        Gate {
            a: 1,
            b: 2,
            code: 6
        };
        between
    ];
    let code = random.one_of(&[1, 2, 4, 7, 8, 11, 13, 14]);
    let gate = Gate { a: 1, b: 2, code };
    gates.push(gate);
    (to_bytes(2, 1, &gates), 2 + gates.len(), gate)
}

/// What is encrypted for H(x,i) of a half-gates scheme: the key, and the block.
fn hashed(scheme: Scheme, x: Block, i: usize) -> (Block, Block) {
    let tweak = Block::number(i);
    match scheme {
        Scheme::RekeyedHalfGates => (tweak, x.sigma()),
        _ => (FIXED_KEY, x.double() ^ tweak),
    }
}

/// Lines of garble by schemes 3 and 4, in any run: row G is H(A,j) ⊕ H(A⊕R,j) ⊕ tR, row E is
/// H(B,k) ⊕ H(B⊕R,k) ⊕ A, and each H is a block encrypted, ⊕ the block. So the sum of two encrypted blocks
/// is seen in each row.
fn row_lines(random: &mut Random, scheme: Scheme) -> String {
    let (bytes, g, gate) = charged_last(random);
    let mut call = call_on(random, Operation::Garble, &bytes);
    call.scheme = scheme.byte();
    add_run(random, &mut call);
    let buffers = archive_buffers(&call);
    let rows = Block::list(&buffers[0][9 + 4..9 + 4 + 2 * BLOCK]);
    let inputs = Block::list(&buffers[1][..2 * BLOCK]);
    let r = inputs[0] ^ Block::list(&buffers[2])[0];
    let bits = half_gate_bits(gate).expect("a charged code");
    let a = inputs[0] ^ r.times(bits.alpha);
    let b = inputs[1] ^ r.times(bits.beta);
    let line = |row: &str, x: Block, tweak: usize, rest: Block| {
        let [(key, one), (_, other)] = [x, x ^ r].map(|x| hashed(scheme, x, tweak));
        let (blocks, sum) = ([one.0, other.0].concat(), one ^ other ^ rest);
        let (key, blocks, sum) = (text(&key.0), text(&blocks), text(&sum.0));
        format!("row_{row}_{} {key} {blocks} {sum}", scheme.byte())
    };
    let row_g = line("g", a, 2 * g, rows[0] ^ r.times(b.colour().0));
    let row_e = line("e", b, 2 * g + 1, rows[1] ^ a);
    format!("{row_g}\n{row_e}")
}

fn main() {
    let words: Vec<u64> = env::args()
        .skip(1)
        .filter_map(|word| word.parse().ok())
        .collect();
    let &[seed, count] = &words[..] else {
        eprintln!("usage: archive_aes SEED COUNT");
        process::exit(2);
    };
    let mut random = Random::new(seed);
    for _ in 0..count {
        println!("{}", second_line(&mut random));
        println!("{}", seed_lines(&mut random));
        println!("{}", pi_line(&mut random));
        for scheme in [Scheme::HalfGates, Scheme::RekeyedHalfGates] {
            println!("{}", row_lines(&mut random, scheme));
        }
    }
}
