//! Cases of the chain on comparators: "The chain from seed to bit then holds of the comparison itself." (02, job 1)

use crate::chained::{chain_on, spoil, Chain};
use crate::comparator;
use crate::generate::RUNS;
use crate::operations as op;
use crate::random::Random;
use crate::scheme::Scheme;

/// Two figures of a width: the price, and the ceiling.
type Figures = (u64, u64);

/// Below, above and equal: the ends of a width, and neighbours at its upper end.
fn figures(width: u64) -> [Figures; 5] {
    let most = u64::MAX >> (64 - width);
    [
        (0, most),
        (most, 0),
        (most, most),
        (most - 1, most),
        (most, most - 1),
    ]
}

/// The values of the inputs, lowest bit first.
fn values(width: u64, (price, ceiling): Figures) -> Vec<u8> {
    let bits = |figure: u64| (0..width).map(move |bit| (figure >> bit & 1) as u8);
    bits(price).chain(bits(ceiling)).collect()
}

/// The chain of a comparison. Its plain circuit must say what the figures say.
fn comparison(random: &mut Random, scheme: Scheme, width: u64, figures: Figures) -> Chain {
    let circuit = comparator::bytes(width).expect("a width");
    let mut chain = chain_on(random, scheme, circuit);
    chain.values = values(width, figures);
    let mut carried = vec![0; 6 * width as usize - 3];
    op::plain(&chain.circuit, &chain.values, &mut carried).expect("an accepted circuit");
    let due = u8::from(figures.0 <= figures.1);
    assert_eq!(carried.last(), Some(&due), "{width} bits, {figures:?}");
    chain
}

/// By each scheme: the five pairs of some narrow widths, one of wide ones, and each call ended by 19, which alone
/// can end it.
pub fn chains() -> String {
    let mut random = Random::new(1_005);
    let random = &mut random;
    let mut text = String::new();
    let mut runs = RUNS.into_iter().cycle();
    let mut add = |mut chain: Chain, due: Option<(u8, u8)>| {
        chain.run = runs.next().expect("a cycle has no end");
        text += &chain.case_with_room(due);
    };
    for (index, scheme) in Scheme::ALL.into_iter().enumerate() {
        for width in [1, 2, 8] {
            for pair in figures(width) {
                add(comparison(random, scheme, width, pair), None);
            }
        }
        for (width, pair) in [(33, index), (64, 4 - index)] {
            let pair = figures(width)[pair];
            add(comparison(random, scheme, width, pair), None);
        }
        for call in [1, 2, 3, 4] {
            let mut chain = comparison(random, scheme, 8, (1, 0));
            spoil(&mut chain, call, 19);
            add(chain, Some((call, 19)));
        }
        let mut chain = comparison(random, scheme, 8, (0, 1));
        chain.output_room = 15;
        add(chain, Some((5, 19)));
    }
    text
}
