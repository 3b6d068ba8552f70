//! The table of damages, each row against the library: every bit and every length of each file, in exchanges of several
//! seeds' runs and figures. What is seen must be all that the row says, and nothing else.

use super::claims::{rows, Row, Seen};
use crate::program::due;
use crate::program::world::World;
use std::collections::{BTreeMap, BTreeSet};
use weighhare::Refusal;

const CIRCUIT_LENGTH: Row = row("circuit", "its length");
const CIRCUIT_HEAD: Row = row("circuit", "a bit of its mark; of n, m or q; of a gate's mark");
const OPERANDS: Row = row("circuit", "a bit of a gate's operands");
const CODE: Row = row("circuit", "a bit of a gate's code");
const MATERIAL_LENGTH: Row = row("material", "its length");
const MATERIAL_HEAD: Row = row(
    "material",
    "a bit of its mark; of n, m or q; of a row record's mark or wire number; of the last record's mark",
);
const SCHEME: Row = row("material", "a bit of the scheme byte");
const OTHER_SCHEME: Row = row("material", "the scheme byte, from 3 to 4");
const ROW_BIT: Row = row("material", "a bit of a row");
const HASH_BIT: Row = row("material", "a bit of one of the two hashes at its end");
const EXCHANGED: Row = row("material", "the two hashes at its end, exchanged");
const TOKENS_LENGTH: Row = row("price.tokens, ceiling.tokens", "the length of one");
const TOKEN_BIT: Row = row("price.tokens, ceiling.tokens", "a bit");
const TOKENS_MIXED: Row = row(
    "price.tokens, ceiling.tokens",
    "two tokens exchanged; a token of another garbling",
);
const OUTPUTS_LENGTH: Row = row("outputs", "its length");
const OUTPUTS_BIT: Row = row("outputs", "a bit");
const OUTPUTS_MIXED: Row = row("outputs", "the token of another wire; of another garbling");
const LISTS_LENGTH: Row = row("zeros, ones", "the length of one");
const LISTS_BIT: Row = row("zeros, ones", "a bit");
const SEED_LENGTH: Row = row("seed", "its length");
const SEED_BIT: Row = row("seed", "a bit, before the seller garbles");
pub const MISSING: Row = row("any", "the file is not there");

const fn row(file: &'static str, change: &'static str) -> Row {
    Row { file, change }
}

/// The row, and the part of it, that a byte of a file of the exchange belongs to, by the files' formats.
pub fn row_of_byte(file: &str, byte: usize) -> (Row, usize) {
    match (file, byte) {
        ("circuit", 0..8) => (CIRCUIT_HEAD, usize::from(byte > 1)),
        ("circuit", _) => match (byte - 8) % 7 {
            0 | 1 => (CIRCUIT_HEAD, 2),
            6 => (CODE, 0),
            _ => (OPERANDS, 0),
        },
        ("material", 2) => (SCHEME, 0),
        ("material", 0..9) => (MATERIAL_HEAD, usize::from(byte > 1)),
        ("material", 1161 | 1162) => (MATERIAL_HEAD, 3),
        ("material", 1163..) => (HASH_BIT, 0),
        ("material", _) if (byte - 9) % 36 < 4 => (MATERIAL_HEAD, 2),
        ("material", _) => (ROW_BIT, 0),
        ("price.tokens" | "ceiling.tokens", _) => (TOKEN_BIT, 0),
        ("outputs", _) => (OUTPUTS_BIT, 0),
        ("zeros" | "ones", _) => (LISTS_BIT, 0),
        ("seed", _) => (SEED_BIT, 0),
        _ => panic!("no row for {file}"),
    }
}

/// The row of another length of a file.
pub fn row_of_length(file: &str) -> Row {
    match file {
        "circuit" => CIRCUIT_LENGTH,
        "material" => MATERIAL_LENGTH,
        "price.tokens" | "ceiling.tokens" => TOKENS_LENGTH,
        "outputs" => OUTPUTS_LENGTH,
        "zeros" | "ones" => LISTS_LENGTH,
        "seed" => SEED_LENGTH,
        _ => panic!("no row for {file}"),
    }
}

/// What was seen, by row and part.
type AllSeen = BTreeMap<(Row, usize), Seen>;

/// Exchanges of 32 bits by half-gates, as the page has them, with both answers.
fn worlds() -> Vec<World> {
    let figures = [[1200, 1500], [1501, 1500], [u64::from(u32::MAX), u64::from(u32::MAX)]];
    let world = |run: usize| World::hashed(32, figures[run % 3], due::SEED, run as u64, 3);
    let worlds: Vec<World> = (0..6).map(world).collect();
    let answers = worlds.iter().map(|world| world.file("bits")[0]);
    assert_eq!(answers.collect::<BTreeSet<_>>().len(), 2, "both answers");
    worlds
}

/// What the desk answers, where the file has these bytes: whether it is right.
fn at_the_desk(world: &World, file: &str, bytes: &[u8]) -> Result<bool, Refusal> {
    let of = |name: &str| if name == file { bytes } else { world.file(name) };
    let outputs = if file == "outputs" {
        bytes.to_vec()
    } else {
        let tokens = [of("price.tokens"), of("ceiling.tokens")].concat();
        let wires = due::evaluate(of("circuit"), &tokens, of("material"))?;
        due::output_tokens(of("circuit"), &wires)?
    };
    let bits = due::decode(of("circuit"), &outputs, of("material"))?;
    Ok(bits == world.file("bits"))
}

/// Whether pick gives the tokens that it should, where the list has these bytes. If not, the desk meets refusal 29.
fn at_pick(world: &World, file: &str, bytes: &[u8]) -> Result<bool, Refusal> {
    let of = |name: &str| if name == file { bytes } else { world.file(name) };
    let tokens = due::pick(of("zeros"), of("ones"), 1, world.file("values"))?;
    let right = tokens == world.file("tokens");
    let [circuit, material] = ["circuit", "material"].map(|name| world.file(name));
    let outputs = due::output_tokens(circuit, &due::evaluate(circuit, &tokens, material)?)?;
    let decoded = due::decode(circuit, &outputs, material).map_err(Refusal::number);
    assert_eq!(decoded.is_ok(), right);
    assert!(right || decoded == Err(29));
    Ok(right)
}

/// Whether the answer is right, where the seller garbles from these bytes.
fn from_seed(world: &World, _: &str, bytes: &[u8]) -> Result<bool, Refusal> {
    let circuit = world.file("circuit");
    let garbled = due::garble_with(world.mark, circuit, bytes, world.run, world.scheme)?;
    assert_ne!(
        garbled.material,
        world.file("material"),
        "another seed, another garbling"
    );
    let tokens = due::encode(circuit, world.file("values"), garbled.zeros(), &garbled.ones)?;
    let outputs = due::output_tokens(circuit, &due::evaluate(circuit, &tokens, &garbled.material)?)?;
    Ok(due::decode(circuit, &outputs, &garbled.material)? == world.file("bits"))
}

/// What happens, where a file has these bytes.
type Outcome = fn(&World, &str, &[u8]) -> Result<bool, Refusal>;

/// The files of the table, with what happens where they are read.
const FILES: [(&str, Outcome); 8] = [
    ("circuit", at_the_desk),
    ("material", at_the_desk),
    ("price.tokens", at_the_desk),
    ("ceiling.tokens", at_the_desk),
    ("outputs", at_the_desk),
    ("zeros", at_pick),
    ("ones", at_pick),
    ("seed", from_seed),
];

/// Each bit of a file, flipped.
fn flip_each(seen: &mut AllSeen, world: &World, file: &str, outcome: Outcome) {
    let mut bytes = world.file(file).to_vec();
    for byte in 0..bytes.len() {
        for bit in 0..8 {
            bytes[byte] ^= 1 << bit;
            let outcome = outcome(world, file, &bytes).map_err(Refusal::number);
            seen.entry(row_of_byte(file, byte)).or_default().add(outcome);
            bytes[byte] ^= 1 << bit;
        }
    }
}

/// Each shorter length of a file, and some longer ones.
fn cut_each(seen: &mut AllSeen, world: &World, file: &str, outcome: Outcome) {
    let right = world.file(file);
    let mut longer = right.to_vec();
    for more in [1, 2, 4, 7, 16, 36, 512] {
        longer.resize(right.len() + more, 0);
        let outcome = outcome(world, file, &longer).map_err(Refusal::number);
        seen.entry((row_of_length(file), 0)).or_default().add(outcome);
    }
    for length in 0..right.len() {
        let outcome = outcome(world, file, &right[..length]).map_err(Refusal::number);
        seen.entry((row_of_length(file), 0)).or_default().add(outcome);
    }
}

/// What happens at the desk with these bytes of a file, as a part of a row.
fn see(seen: &mut AllSeen, (row, part): (Row, usize), world: &World, file: &str, bytes: &[u8]) {
    let outcome = at_the_desk(world, file, bytes).map_err(Refusal::number);
    seen.entry((row, part)).or_default().add(outcome);
}

/// The material with another scheme byte, and with its two hashes exchanged.
fn see_material(seen: &mut AllSeen, world: &World) {
    let material = world.file("material");
    let mut other = material.to_vec();
    assert_eq!(std::mem::replace(&mut other[2], 4), 3);
    see(seen, (OTHER_SCHEME, 0), world, "material", &other);
    let (front, hashes) = material.split_at(1163);
    let exchanged = [front, &hashes[16..], &hashes[..16]].concat();
    see(seen, (EXCHANGED, 0), world, "material", &exchanged);
}

/// Tokens in each other's place, and tokens of another exchange.
fn see_mixed(seen: &mut AllSeen, world: &World, other: &World) {
    for file in ["price.tokens", "ceiling.tokens"] {
        for token in 0..32 {
            let mut tokens: Vec<&[u8]> = world.file(file).chunks(16).collect();
            tokens.swap(token, (token + 1 + token % 30) % 32);
            see(seen, (TOKENS_MIXED, 0), world, file, &tokens.concat());
            let mut tokens: Vec<&[u8]> = world.file(file).chunks(16).collect();
            tokens[token] = &other.file(file)[16 * token..][..16];
            see(seen, (TOKENS_MIXED, 1), world, file, &tokens.concat());
        }
    }
    let (output, wires) = (world.file("outputs"), world.file("wires").chunks(16));
    for wire in wires.filter(|wire| *wire != output) {
        see(seen, (OUTPUTS_MIXED, 0), world, "outputs", wire);
    }
    see(seen, (OUTPUTS_MIXED, 1), world, "outputs", other.file("outputs"));
}

/// All damages of all files but those of the row with its own test.
fn see_all(seen: &mut AllSeen, world: &World, other: &World) {
    for (file, outcome) in FILES {
        flip_each(seen, world, file, outcome);
        cut_each(seen, world, file, outcome);
    }
    see_material(seen, world);
    see_mixed(seen, world, other);
}

#[test]
fn each_row_says_what_happens() {
    let mut seen = AllSeen::new();
    let worlds = worlds();
    for (index, world) in worlds.iter().enumerate() {
        see_all(&mut seen, world, &worlds[(index + 1) % worlds.len()]);
    }
    let mut said = BTreeSet::from([MISSING]);
    for ((row, part), seen) in seen {
        let claims = row.claims();
        assert!(
            seen.is_all_of(&claims[part]),
            "{row:?}, part {part}: {seen:?}, {claims:?}"
        );
        said.insert(row);
    }
    assert_eq!(said, rows().into_iter().collect(), "every row of the table");
}

/// A bit of `zeros` or `ones` changes the token that is taken, or is in one that is not taken.
#[test]
fn a_bit_of_a_list_changes_its_own_token_alone() {
    let world = &worlds()[0];
    for (list, value) in [("zeros", 0), ("ones", 1)] {
        let mut bytes = world.file(list).to_vec();
        for index in 0..bytes.len() {
            bytes[index] ^= 0x10;
            let taken = world.file("values")[index / 16] == value;
            let right = at_pick(world, list, &bytes).expect("picked");
            assert_eq!(right, !taken, "byte {index} of {list}");
            bytes[index] ^= 0x10;
        }
    }
}

/// The tests' own claims are no looser than the page's: a number too few, too many, or another answer is seen.
#[test]
fn a_wrong_row_would_be_seen() {
    let seen = |outcomes: &[Result<bool, u8>]| {
        let mut seen = Seen::default();
        outcomes.iter().for_each(|outcome| seen.add(*outcome));
        seen
    };
    let claim = &CIRCUIT_LENGTH.claims()[0];
    assert!(seen(&[Err(1), Err(4)]).is_all_of(claim));
    assert!(!seen(&[Err(1)]).is_all_of(claim) && seen(&[Err(1)]).is_within(claim));
    for outcomes in [[Err(1), Err(5)], [Err(4), Ok(true)], [Err(4), Ok(false)]] {
        assert!(!seen(&outcomes).is_all_of(claim) && !seen(&outcomes).is_within(claim));
    }
    let opposite = &EXCHANGED.claims()[0];
    assert!(seen(&[Ok(false)]).is_all_of(opposite));
    assert!(!seen(&[Ok(true), Ok(false)]).is_within(opposite));
    let either = &ROW_BIT.claims()[0];
    assert!(seen(&[Ok(true), Err(29)]).is_all_of(either));
    assert!(!seen(&[Ok(true)]).is_all_of(either) && !seen(&[Err(17)]).is_within(either));
    assert!(!seen(&[Ok(false), Err(29)]).is_within(either));
}
