//! The exchange with nothing damaged.

use super::page::{bytes_said, command, split_at, steps, table, SIDES};
use super::typed::{figure, place, type_all, with_figures};
use crate::program::due;
use crate::program::folder::Folder;
use std::collections::BTreeMap;
use std::thread;

/// The heading after which what is secret is gone.
const SECRETS_GO: &str = "5. What is secret goes";

const AFTERWARDS: &str = "Afterwards, if both figures may be known";

/// The largest figure of 32 bits.
const MOST: u64 = u32::MAX as u64;

#[test]
fn as_the_page_types_it() {
    let steps = steps();
    assert!(SIDES.iter().all(|side| steps.iter().any(|step| step.side == *side)));
    type_all(&place(), &steps);
}

#[test]
fn the_answer_on_the_page_is_right() {
    let steps = steps();
    let printed: String = steps.iter().map(|step| step.output.as_str()).collect();
    let due = due::answer(figure(&steps, "price") <= figure(&steps, "ceiling"));
    assert_eq!(printed, due, "all that the page prints");
}

#[test]
fn with_other_figures_too() {
    let steps = steps();
    let ceiling = figure(&steps, "ceiling");
    let mut pairs = [0, ceiling - 1, ceiling, ceiling + 1, MOST]
        .map(|price| (price, ceiling))
        .to_vec();
    pairs.extend([0, 1, MOST - 1, MOST].map(|ceiling| (0, ceiling)));
    pairs.extend([0, 1, MOST - 1, MOST].map(|ceiling| (MOST, ceiling)));
    thread::scope(|scope| {
        for pairs in pairs.chunks(pairs.len().div_ceil(2)) {
            let steps = &steps;
            scope.spawn(move || {
                for (price, ceiling) in pairs {
                    type_all(&place(), &with_figures(steps, *price, *ceiling));
                }
            });
        }
    });
}

/// The place when the desk has its answer.
fn answered() -> Folder {
    let (before, _) = split_at(SECRETS_GO);
    let place = place();
    type_all(&place, &before);
    place
}

/// The sides at which a file of this name lies, as paths.
fn wherever(place: &Folder, file: &str) -> Vec<String> {
    let paths = SIDES.map(|side| format!("{side}/{file}"));
    paths.into_iter().filter(|path| place.path(path).exists()).collect()
}

/// The sizes that the page says are those that are defined, and those that the files have.
#[test]
fn each_file_has_the_size_that_the_page_says() {
    let (w, token) = (32, 16);
    let defined = BTreeMap::from([
        ("circuit", 28 * w - 13),
        ("seed", 16),
        ("material", 11 + 2 * token + w * (4 + 2 * token)),
        ("zeros", 2 * w * token),
        ("ones", 2 * w * token),
        ("price.tokens", w * token),
        ("ceiling.tokens", w * token),
        ("outputs", token),
    ]);
    let rows = table("The files");
    let said = rows.iter().flat_map(|row| {
        let size = bytes_said(row[1]);
        row[0].split(", ").filter_map(move |file| Some((file, size?)))
    });
    assert_eq!(said.collect::<BTreeMap<_, _>>(), defined);
    let place = answered();
    for (file, size) in defined {
        let paths = wherever(&place, file);
        assert!(!paths.is_empty(), "{file} is nowhere");
        for path in paths {
            assert_eq!(place.read(&path).len(), size, "{path}");
        }
    }
}

/// The page's table of files has each file of the place, and no other.
#[test]
fn each_file_is_in_the_table() {
    let place = answered();
    let mut found: Vec<String> = place
        .listing()
        .into_keys()
        .filter_map(|path| {
            let path = path.into_string().expect("a plain name");
            path.split_once('/').map(|(_, file)| file.to_owned())
        })
        .collect();
    found.retain(|file| file != "own-circuit");
    found.sort();
    found.dedup();
    let mut said: Vec<&str> = table("The files").iter().flat_map(|row| row[0].split(", ")).collect();
    said.sort();
    assert_eq!(found, said);
}

#[test]
fn secret_files_are_for_their_owner_alone() {
    let place = place();
    type_all(&place, &split_at(SECRETS_GO).0);
    for path in [
        "seller/seed",
        "seller/zeros",
        "seller/ones",
        "seller/price.tokens",
        "purchasing/ceiling.tokens",
        "desk/outputs",
    ] {
        assert_eq!(place.mode(path), 0o600, "{path}");
    }
    // What the shell writes has the rights that anybody's files have here.
    for path in ["seller/circuit", "seller/material", "desk/own-circuit"] {
        assert_eq!(place.mode(path), place.mode("seller/price"), "{path}");
    }
    type_all(&place, &split_at(SECRETS_GO).1);
    for path in ["desk/again-zeros", "desk/again-ones"] {
        assert_eq!(place.mode(path), 0o600, "{path}");
    }
}

/// What the program wrote is what the library gives for the seed that was drawn.
#[test]
fn the_files_are_the_librarys() {
    let place = answered();
    let steps = steps();
    let (price, ceiling) = (figure(&steps, "price"), figure(&steps, "ceiling"));
    let circuit = due::comparator(32).expect("a circuit");
    let seed = place.read("seller/seed");
    let garbled = due::garble_with(due::HASHES, &circuit, &seed, 0, 3).expect("garbled");
    let values = [due::values(price, 32), due::values(ceiling, 32)].concat();
    let tokens = due::encode(&circuit, &values, garbled.zeros(), &garbled.ones).expect("encoded");
    let wires = due::evaluate(&circuit, &tokens, &garbled.material).expect("evaluated");
    let outputs = due::output_tokens(&circuit, &wires).expect("gathered");
    for (file, due) in [
        ("circuit", &circuit[..]),
        ("material", &garbled.material),
        ("zeros", garbled.zeros()),
        ("ones", &garbled.ones),
        ("price.tokens", &tokens[..512]),
        ("ceiling.tokens", &tokens[512..]),
        ("outputs", &outputs),
    ] {
        for path in wherever(&place, file) {
            assert!(place.read(&path) == due, "{path}");
        }
    }
}

/// Two exchanges have each their own seed, and so their own tokens.
#[test]
fn each_exchange_has_its_own_seed() {
    let [one, other] = [answered(), answered()];
    for path in ["seller/seed", "seller/zeros", "seller/ones", "desk/outputs"] {
        assert_ne!(one.read(path), other.read(path), "{path}");
    }
}

/// When what is secret has gone, no token is left in any file, but for the seed, from which the seller can make all again.
#[test]
fn no_token_is_left() {
    let place = answered();
    let tokens = [
        place.read("seller/zeros"),
        place.read("seller/ones"),
        place.read("desk/outputs"),
    ]
    .concat();
    let (_, after) = split_at(SECRETS_GO);
    let going: Vec<_> = after.into_iter().filter(|step| step.heading == SECRETS_GO).collect();
    type_all(&place, &going);
    for (path, entry) in place.listing() {
        for token in tokens.chunks(16) {
            let found = entry.bytes.windows(16).any(|window| window == token);
            assert!(!found, "a token in {path:?}");
        }
    }
}

/// `cmp` shows material that is not the seed's, and a circuit that was not agreed on.
#[test]
fn cmp_shows_a_change() {
    let place = answered();
    let (_, after) = split_at(AFTERWARDS);
    type_all(&place, &after[..1]);
    for (begins, index, path) in [
        ("cmp own-circuit", 0, "desk/circuit"),
        ("cmp again", 0, "desk/material"),
    ] {
        let mut bytes = place.read(path);
        let step = command(begins, index);
        type_all(&place, std::slice::from_ref(&step));
        *bytes.last_mut().expect("a byte") ^= 1;
        place.write(path, &bytes);
        let line = crate::program::process::shell(&place.path(step.side), &step.command).output();
        assert_eq!(line.expect("a shell").status.code(), Some(1), "{}", step.command);
    }
}
