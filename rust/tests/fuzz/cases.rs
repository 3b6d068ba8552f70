//! A case: words, files and standard input for one run, all from the seed and the run's number.

use super::{files, words};
use crate::program::due::SEED;
use crate::program::random::Random;
use crate::program::world::World;
use std::collections::BTreeMap;

/// The files of a folder, by name.
pub type Files = BTreeMap<Vec<u8>, Vec<u8>>;

/// What one run of the program is given.
pub struct Case {
    pub words: Vec<Vec<u8>>,
    pub files: Files,
    pub stdin: Vec<u8>,
    /// The figures of the exchange that the words are of, in decimal.
    pub figures: [String; 2],
    /// Whether words and files are those of a right call, so that it must end with status 0.
    pub right: bool,
}

/// Exchanges of every scheme, and two with hashes in the material. Their figures have 12 digits or more, so that none
/// occurs by chance.
pub fn worlds() -> Vec<World> {
    let other = |by: u8| SEED.map(|byte| byte.wrapping_mul(3).wrapping_add(by));
    vec![
        World::new(64, [17_846_153_902_468_013_579, 18_305_791_246_801_357_924], SEED, 0, 1),
        World::new(50, [918_273_645_546_372, 918_273_645_546_372], other(1), 5, 2),
        World::new(40, [738_291_046_582, 647_382_910_465], other(2), 0, 3),
        World::new(
            63,
            [8_172_635_445_362_718_091, 8_172_635_445_362_718_092],
            other(3),
            1 << 40,
            4,
        ),
        World::hashed(41, [829_104_658_273, 829_104_658_274], other(4), 9, 3),
        World::hashed(42, [3_104_658_273_918, 2_982_736_455_463], other(5), 0, 1),
    ]
}

/// The case of a run.
pub fn case(worlds: &[World], seed: u64, number: u64) -> Case {
    let mut random = Random::new(seed.wrapping_mul(0x9E37_79B9).wrapping_add(number));
    // Runs after one another are of one exchange, so that few files have to be written.
    let world = &worlds[(number / 256) as usize % worlds.len()];
    let mut case = Case {
        words: Vec::new(),
        files: files::right(world),
        stdin: Vec::new(),
        figures: [world.price.to_string(), world.ceiling.to_string()],
        right: true,
    };
    words::give(&mut case, world, &mut random);
    if random.chance(50) {
        files::damage(&mut case, worlds, &mut random);
    }
    if random.chance(15) {
        files::put_in_the_way(&mut case, &mut random);
    }
    if random.chance(55) {
        words::change(&mut case, &mut random);
    }
    if case.stdin.is_empty() && random.chance(50) {
        let contents: Vec<&Vec<u8>> = case.files.values().collect();
        case.stdin = random.one_of(&contents).clone();
    }
    case
}
