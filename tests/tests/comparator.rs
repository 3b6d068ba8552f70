//! The comparator by width, by the words of 02, job 1, on the second implementation and on the archive, for
//! every width from 1 to 64. What a circuit must answer is worked out here from the figures alone, and never
//! from its gates. Each circuit is accepted, has 2w inputs, one output, 4w-3 gates, w of them charged, and
//! 28w-13 bytes, the same by both. Its plain output is 1 exactly when price ≤ ceiling: for all pairs of
//! figures up to 6 bits, and for those of `pairs` beyond. The chain's bit is compared by each scheme and in
//! many runs. Widths outside 1 to 64 are refused with any room; a short buffer is refused at the bytes needed
//! and left as it was; a longer one keeps its tail.

mod sides;

use second::block::BLOCK;
use second::call::{Call, Operation};
use second::generate::{room, seed, RUNS};
use second::interface;
use second::program;
use second::random::Random;
use sides::{Side, SIDES};

/// The comparator's call for a width, in a buffer of so many bytes.
fn comparator(width: u64, room: usize) -> Call {
    Call {
        operation: Operation::Comparator,
        width,
        lens: vec![room],
        fill: 0xC3,
        ..Call::default()
    }
}

/// The bytes of a width's circuit, 28w-13.
fn length(width: u64) -> usize {
    28 * width as usize - 13
}

/// The circuit for a width, in a buffer of just its bytes. "What writes a circuit returns its length."
fn circuit(side: Side, width: u64) -> Vec<u8> {
    let answer = side(&comparator(width, length(width)));
    assert_eq!(answer.number, 0, "width {width}");
    assert_eq!(
        answer.words,
        [length(width) as u64, 0, 0, 0],
        "width {width}"
    );
    answer.buffers.concat()
}

/// The output buffers of a call that must not be refused, in buffers of the bytes named.
fn buffers(side: Side, mut call: Call) -> Vec<Vec<u8>> {
    call.lens = room(&call).expect("an accepted circuit");
    let answer = side(&call);
    assert_eq!(answer.number, 0, "{call:02x?}");
    answer.buffers
}

/// The largest figure of a width.
fn most(width: u64) -> u64 {
    u64::MAX >> (64 - width)
}

/// The values of the inputs: the price and then the ceiling, lowest bit first.
fn values(width: u64, price: u64, ceiling: u64) -> Vec<u8> {
    let bits = |figure: u64| (0..width).map(move |i| (figure >> i & 1) as u8);
    bits(price).chain(bits(ceiling)).collect()
}

/// "Exactly w charged gates, 4w-3 gates in all", "with one output", "in an accepted circuit".
#[test]
fn every_width_is_accepted_with_its_sizes() {
    for (name, side) in SIDES {
        for width in 1..=64 {
            let bytes = circuit(side, width);
            assert_eq!(bytes[..2], [0x43, 0x48], "{name}, width {width}");
            let answer = side(&Call {
                circuit: bytes,
                ..Call::default()
            });
            let sizes = [2 * width, 1, 4 * width - 3, width];
            let given = (answer.number, answer.words);
            assert_eq!(given, (0, sizes), "{name}, width {width}");
        }
    }
}

/// The circuits of one bit and of two, put together by hand from docs/FORMATS.md.
#[test]
fn the_narrowest_by_hand() {
    let one = [0x43, 0x48, 0, 2, 0, 1, 0, 1, 0x43, 0x47, 0, 1, 0, 2, 11];
    let header = vec![0x43, 0x48, 0, 4, 0, 1, 0, 5];
    let gates = [
        [0x43, 0x47, 0, 1, 0, 3, 11],
        [0x43, 0x47, 0, 2, 0, 5, 9],
        [0x43, 0x47, 0, 4, 0, 5, 6],
        [0x43, 0x47, 0, 6, 0, 7, 8],
        [0x43, 0x47, 0, 5, 0, 8, 6],
    ];
    let two = [header, gates.concat()].concat();
    for (name, side) in SIDES {
        assert_eq!(circuit(side, 1), one, "{name}");
        assert_eq!(circuit(side, 2), two, "{name}");
    }
}

/// Whoever agrees on a width has the same circuit.
#[test]
fn both_write_the_same_bytes() {
    let [(_, second), (_, archive)] = SIDES;
    for width in 1..=64 {
        let [second, archive] = [second, archive].map(|side| circuit(side, width));
        assert_eq!(second, archive, "width {width}");
    }
}

/// What the program prints of a circuit: its sizes, and lengths of 11+m+p(4+16r) bytes, r = 4, 3, 2.
#[test]
fn what_the_program_prints() {
    for (_, side) in SIDES {
        for w in 1..=64 {
            let [four, three, two] = [68, 52, 36].map(|record| 12 + w * record);
            let due = format!("{} 1 {} {w}\n{four} {three} {two}\n", 2 * w, 4 * w - 3);
            assert_eq!(program::output(&circuit(side, w)), due);
        }
    }
}

/// The plain output is 1 exactly when price ≤ ceiling, for each pair.
fn check_plain(side: Side, width: u64, pairs: &[(u64, u64)], name: &str) {
    let mut call = Call {
        operation: Operation::Plain,
        circuit: circuit(side, width),
        ..Call::default()
    };
    for &(price, ceiling) in pairs {
        call.values = values(width, price, ceiling);
        let carried = buffers(side, call.clone()).concat();
        assert_eq!(carried.len() as u64, 6 * width - 3, "{name}");
        let due = u8::from(price <= ceiling);
        let name = format!("{name}, width {width}: {price} and {ceiling}");
        assert_eq!(carried.last(), Some(&due), "{name}");
    }
}

/// Every two figures of a width.
fn all_pairs(width: u64) -> Vec<(u64, u64)> {
    let figures = 0..=most(width);
    let pairs = figures
        .clone()
        .flat_map(|price| figures.clone().map(move |ceiling| (price, ceiling)));
    pairs.collect()
}

#[test]
fn every_pair_of_narrow_figures() {
    for (name, side) in SIDES {
        for width in 1..=6 {
            check_plain(side, width, &all_pairs(width), name);
        }
    }
}

/// A figure of a width.
fn figure(random: &mut Random, width: u64) -> u64 {
    let bytes: [u8; 8] = random.bytes(8).try_into().expect("8 bytes");
    u64::from_be_bytes(bytes) & most(width)
}

/// Pairs of a width: the ends; each power of two beside 0, itself, its neighbours, the next power and the
/// largest figure; each bit alone different in figures that are otherwise equal; equal and neighbouring
/// figures; any figures; and those that agree in their upper bits. Each of them both ways.
fn pairs(random: &mut Random, width: u64) -> Vec<(u64, u64)> {
    let most = most(width);
    let mut pairs = vec![(0, 0), (0, most), (most, most), (most - 1, most)];
    for bit in 0..width {
        let power = 1 << bit;
        let others = [0, power - 1, power, power + 1, power << 1, most];
        pairs.extend(others.map(|other| (power, other & most)));
        let same = figure(random, width);
        pairs.push((same, same ^ power));
    }
    for _ in 0..100 {
        let [one, other] = [0; 2].map(|_| figure(random, width));
        let low = other >> random.below(width as usize);
        let neighbour = one.saturating_add(1).min(most);
        pairs.extend([(one, one), (one, neighbour), (one, other), (one, one ^ low)]);
    }
    let exchanged: Vec<_> = pairs.iter().map(|&(x, y)| (y, x)).collect();
    pairs.extend(exchanged);
    pairs
}

#[test]
fn pairs_of_wide_figures() {
    let mut random = Random::new(91);
    for width in 7..=64 {
        let pairs = pairs(&mut random, width);
        assert!(pairs.iter().all(|&(x, y)| x.max(y) <= most(width)));
        for (name, side) in SIDES {
            check_plain(side, width, &pairs, name);
        }
    }
}

/// Which garbling is made, and for which figures.
#[derive(Clone, Copy, Debug)]
struct Comparison {
    width: u64,
    price: u64,
    ceiling: u64,
    scheme: u8,
    run: u64,
}

/// "The chain from seed to bit then holds of the comparison itself": the bit that garble, encode, evaluate, the
/// outputs' tokens and decode give in turn.
fn chained_bit(side: Side, bytes: &[u8], seed: &[u8], asked: Comparison) -> u8 {
    let on = |operation| Call {
        operation,
        circuit: bytes.to_vec(),
        ..Call::default()
    };
    let mut garble = on(Operation::Garble);
    (garble.seed, garble.run, garble.scheme) = (seed.to_vec(), asked.run, asked.scheme);
    let [material, zeros, ones] = buffers(side, garble).try_into().expect("three buffers");
    let mut encode = on(Operation::Encode);
    encode.values = values(asked.width, asked.price, asked.ceiling);
    encode.zero = zeros[..BLOCK * encode.values.len()].to_vec();
    encode.one = ones;
    let mut evaluate = on(Operation::Evaluate);
    (evaluate.tokens, evaluate.material) = (buffers(side, encode).concat(), material.clone());
    let mut outputs = on(Operation::OutputTokens);
    outputs.tokens = buffers(side, evaluate).concat();
    let mut decode = on(Operation::Decode);
    (decode.tokens, decode.material) = (buffers(side, outputs).concat(), material);
    let bits = buffers(side, decode).concat();
    assert_eq!(bits.len(), 1, "{asked:?}");
    bits[0]
}

/// Each pair of a width by each scheme, every garbling from the one seed in a run of its own.
fn check_chain(side: Side, width: u64, pairs: &[(u64, u64)], seed: &[u8], name: &str) {
    let bytes = circuit(side, width);
    let runs = (0..).map(|k: usize| RUNS[k % RUNS.len()].wrapping_add((k / RUNS.len()) as u64 * 3));
    let by_scheme = (1..=4).flat_map(|scheme| pairs.iter().map(move |&pair| (scheme, pair)));
    for ((scheme, (price, ceiling)), run) in by_scheme.zip(runs) {
        let asked = Comparison {
            width,
            price,
            ceiling,
            scheme,
            run,
        };
        let due = u8::from(price <= ceiling);
        let bit = chained_bit(side, &bytes, seed, asked);
        assert_eq!(bit, due, "{name}, {asked:?}");
    }
}

/// Every width by each scheme: below, equal and above, at the ends and between them.
#[test]
fn garbled_in_every_width() {
    let mut random = Random::new(92);
    for width in 1..=64 {
        let (most, seed) = (most(width), seed(&mut random));
        let [one, other] = [0; 2].map(|_| figure(&mut random, width));
        let pairs = [
            (0, 0),
            (0, most),
            (most, 0),
            (most, most),
            (most - 1, most),
            (most, most - 1),
            (one, one),
            (one, other),
            (other, one),
        ];
        for (name, side) in SIDES {
            check_chain(side, width, &pairs, &seed, name);
        }
    }
}

#[test]
fn every_pair_of_two_bits_garbled() {
    for (name, side) in SIDES {
        for width in [1, 2] {
            check_chain(side, width, &all_pairs(width), b"a seed: 16 bytes", name);
        }
    }
}

/// The comparator's number, place and buffer; the words behind the place must be 0.
fn refused(side: Side, width: u64, room: usize) -> (u8, u64) {
    let call = comparator(width, room);
    let answer = side(&call);
    assert_eq!(answer.words[1..], [0; 3], "width {width}, room {room}");
    let before = interface::buffers(&call);
    assert_eq!(
        answer.buffers, before,
        "width {width}, room {room}: written"
    );
    (answer.number, answer.words[0])
}

/// "21 when w is outside 1 to 64 (place w), before refusal 19": with no room, with some, and with much.
#[test]
fn a_width_outside_its_limits_is_refused() {
    let near = (65..=300).chain([0, 511, 512, 1 << 15, 1 << 16]);
    // The low 8, 16 or 32 bits are a width.
    let low = [
        256 + 1,
        256 + 64,
        (1 << 16) + 64,
        (1 << 32) + 8,
        (1 << 63) + 64,
    ];
    let far = [1 << 32, 1 << 63, u64::MAX - 63, u64::MAX - 1, u64::MAX];
    for width in near.chain(low).chain(far) {
        for (name, side) in SIDES {
            for room in [0, 1, 14, 15, 1779, 1807, 5000] {
                let due = (21, width);
                assert_eq!(refused(side, width, room), due, "{name}, room {room}");
            }
        }
    }
}

/// 19 where the buffer is too short, if only by a byte, at the bytes needed.
#[test]
fn a_short_buffer_is_refused() {
    for (name, side) in SIDES {
        for width in 1..=64 {
            let needed = length(width);
            for room in [0, 1, 8, needed / 2, needed - 8, needed - 2, needed - 1] {
                let due = (19, needed as u64);
                assert_eq!(refused(side, width, room), due, "{name}, room {room}");
            }
        }
    }
}

/// A longer buffer gets the same bytes, and those past them are untouched.
#[test]
fn a_longer_buffer_keeps_its_tail() {
    for (name, side) in SIDES {
        for width in 1..=64 {
            let (needed, bytes) = (length(width), circuit(side, width));
            for more in [1, 2, 7, 28, 1000] {
                let call = comparator(width, needed + more);
                let answer = side(&call);
                let given = (answer.number, answer.words);
                let name = format!("{name}, width {width}, {more} bytes more");
                assert_eq!(given, (0, [needed as u64, 0, 0, 0]), "{name}");
                let (made, tail) = answer.buffers[0].split_at(needed);
                assert_eq!(made, bytes, "{name}");
                assert_eq!(tail, &interface::buffers(&call)[0][needed..], "{name}");
            }
        }
    }
}
