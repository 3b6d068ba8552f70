//! What is due of words that the program took: the words taken apart once more, and the library's functions on slices.

use super::cases::Case;
use crate::program::due;
use weighhare::Refusal;

/// The options that take no value.
const FLAGS: [&[u8]; 3] = [b"--force", b"--yes-no", b"--hashed"];

/// The options that name files which are written, and whether these are secret, by command.
pub const WRITES: [(&str, &str, bool); 12] = [
    ("comparator", "--out", false),
    ("seed", "--out", true),
    ("garble", "--material", false),
    ("garble", "--zeros", true),
    ("garble", "--ones", true),
    ("garble", "--all-zeros", true),
    ("encode", "--out", true),
    ("pick", "--out", true),
    ("evaluate", "--out", true),
    ("evaluate", "--wires", true),
    ("decode", "--out", false),
    ("plain", "--wires", true),
];

/// Words as a command, the words that belong to no option, and the options.
pub struct Parsed<'a> {
    pub command: &'a str,
    words: Vec<&'a [u8]>,
    options: Vec<(&'a [u8], &'a [u8])>,
}

/// What a command is to do: what it writes, by option, and what it prints. The bytes of a seed that is drawn are anything.
pub struct Done {
    pub written: Vec<(&'static str, Option<Vec<u8>>)>,
    pub printed: String,
}

/// Takes words apart. Nothing where they cannot be those of a call that is right.
pub fn parse(words: &[Vec<u8>]) -> Option<Parsed<'_>> {
    let (command, rest) = words.split_first()?;
    let command = std::str::from_utf8(command).ok()?;
    let mut parsed = Parsed {
        command,
        words: Vec::new(),
        options: Vec::new(),
    };
    let mut rest = rest.iter();
    while let Some(word) = rest.next() {
        if word == b"--" {
            parsed.words.extend(rest.by_ref().map(Vec::as_slice));
        } else if !word.starts_with(b"-") || word == b"-" {
            parsed.words.push(word);
        } else if FLAGS.contains(&word.as_slice()) {
            parsed.options.push((word, b""));
        } else if let Some(end) = word.iter().position(|byte| *byte == b'=') {
            parsed.options.push((&word[..end], &word[end + 1..]));
        } else {
            parsed.options.push((word, rest.next()?));
        }
    }
    Some(parsed)
}

impl<'a> Parsed<'a> {
    pub fn all(&self, name: &str) -> Vec<&'a [u8]> {
        let given = self.options.iter().filter(|option| option.0 == name.as_bytes());
        given.map(|option| option.1).collect()
    }

    pub fn option(&self, name: &str) -> Option<&'a [u8]> {
        self.all(name).first().copied()
    }

    fn number(&self, name: &str, otherwise: u64) -> Option<u64> {
        self.option(name).map_or(Some(otherwise), number)
    }
}

fn number(word: &[u8]) -> Option<u64> {
    std::str::from_utf8(word).ok()?.parse().ok()
}

/// What the words of a case are to do, or how they are refused. Nothing where neither can be.
pub fn due(case: &Case, parsed: &Parsed) -> Option<Result<Done, Refusal>> {
    let oracle = Oracle { case, parsed };
    match parsed.command {
        "comparator" => oracle.comparator(),
        "seed" => Some(Ok(written("--out", None))),
        "sizes" => oracle.sizes(),
        "garble" => oracle.garble(),
        "encode" => oracle.encode(),
        "pick" => oracle.pick(),
        "evaluate" => oracle.evaluate(),
        "decode" => oracle.decode(),
        "plain" => oracle.plain(),
        "compare" => oracle.compare(),
        _ => None,
    }
}

fn written(option: &'static str, bytes: Option<Vec<u8>>) -> Done {
    let (written, printed) = (vec![(option, bytes)], String::new());
    Done { written, printed }
}

fn printed(text: impl Into<String>) -> Done {
    let (written, printed) = (Vec::new(), text.into());
    Done { written, printed }
}

/// A file's name as a listing of its folder has it.
pub fn plain_name(mut name: &[u8]) -> &[u8] {
    while let Some(rest) = name.strip_prefix(b"./") {
        name = rest;
    }
    name
}

struct Oracle<'a> {
    case: &'a Case,
    parsed: &'a Parsed<'a>,
}

impl Oracle<'_> {
    fn read(&self, name: &[u8]) -> Option<Vec<u8>> {
        if name == b"-" {
            return Some(self.case.stdin.clone());
        }
        self.case.files.get(plain_name(name)).cloned()
    }

    fn circuit(&self) -> Option<Vec<u8>> {
        self.read(self.parsed.words.first()?)
    }

    fn option(&self, name: &str) -> Option<Vec<u8>> {
        self.read(self.parsed.option(name)?)
    }

    /// The bits of a figure.
    fn figure(&self, word: &[u8]) -> Option<Vec<u8>> {
        let colon = word.iter().rposition(|byte| *byte == b':')?;
        let figure = match word[..colon].strip_prefix(b"@") {
            Some(name) => number(self.read(name)?.trim_ascii())?,
            None => number(&word[..colon])?,
        };
        Some(due::values(figure, number(&word[colon + 1..])? as usize))
    }

    /// The values of all figures, or of a file.
    fn values(&self) -> Option<Vec<u8>> {
        if let Some(values) = self.option("--values") {
            return Some(values);
        }
        let figures = self.parsed.all("--figure").into_iter();
        let values: Option<Vec<Vec<u8>>> = figures.map(|word| self.figure(word)).collect();
        values.map(|values| values.concat())
    }

    fn comparator(&self) -> Option<Result<Done, Refusal>> {
        let circuit = due::comparator(self.parsed.number("--bits", 0)? as usize);
        Some(circuit.map(|circuit| written("--out", Some(circuit))))
    }

    fn sizes(&self) -> Option<Result<Done, Refusal>> {
        Some(due::sizes(&self.circuit()?).map(printed))
    }

    fn garble(&self) -> Option<Result<Done, Refusal>> {
        let (run, scheme) = (self.parsed.number("--run", 0)?, self.parsed.number("--scheme", 3)?);
        let hashed = self.parsed.option("--hashed").is_some();
        let garbled = due::garble_with(
            if hashed { due::HASHES } else { due::COLOURS },
            &self.circuit()?,
            &self.option("--seed")?,
            run,
            u8::try_from(scheme).ok()?,
        );
        Some(garbled.map(|garbled| Done {
            written: vec![
                ("--zeros", Some(garbled.zeros().to_vec())),
                ("--material", Some(garbled.material)),
                ("--ones", Some(garbled.ones)),
                ("--all-zeros", Some(garbled.all_zeros)),
            ],
            printed: String::new(),
        }))
    }

    fn encode(&self) -> Option<Result<Done, Refusal>> {
        let (zeros, ones) = (self.option("--zeros")?, self.option("--ones")?);
        let tokens = due::encode(&self.circuit()?, &self.values()?, &zeros, &ones);
        Some(tokens.map(|tokens| written("--out", Some(tokens))))
    }

    fn pick(&self) -> Option<Result<Done, Refusal>> {
        let bits = match self.parsed.option("--bit") {
            Some(word) => vec![u8::try_from(number(word)?).ok()?],
            None => self.figure(self.parsed.option("--figure")?)?,
        };
        let first = u16::try_from(self.parsed.number("--wire", 0)?).ok()?;
        let tokens = due::pick(&self.option("--zeros")?, &self.option("--ones")?, first, &bits);
        Some(tokens.map(|tokens| written("--out", Some(tokens))))
    }

    fn evaluate(&self) -> Option<Result<Done, Refusal>> {
        let (circuit, material) = (self.circuit()?, self.option("--material")?);
        let files = self.parsed.all("--tokens").into_iter();
        let tokens: Option<Vec<Vec<u8>>> = files.map(|name| self.read(name)).collect();
        let wires = match due::evaluate(&circuit, &tokens?.concat(), &material) {
            Ok(wires) => wires,
            Err(refusal) => return Some(Err(refusal)),
        };
        let outputs = due::output_tokens(&circuit, &wires).expect("tokens of all wires");
        let written = vec![("--out", Some(outputs)), ("--wires", Some(wires))];
        let printed = String::new();
        Some(Ok(Done { written, printed }))
    }

    fn decode(&self) -> Option<Result<Done, Refusal>> {
        let bits = due::decode(
            &self.circuit()?,
            &self.option("--outputs")?,
            &self.option("--material")?,
        );
        Some(bits.map(|bits| match self.parsed.option("--out") {
            Some(_) => written("--out", Some(bits)),
            None if self.parsed.option("--yes-no").is_some() => printed(due::answer(bits == [1])),
            None => printed(due::digits(&bits)),
        }))
    }

    fn plain(&self) -> Option<Result<Done, Refusal>> {
        let circuit = self.circuit()?;
        let wires = due::plain(&circuit, &self.values()?);
        Some(wires.map(|wires| match self.parsed.option("--wires") {
            Some(_) => written("--wires", Some(wires)),
            None => printed(due::digits(&due::outputs_of(&circuit, &wires))),
        }))
    }

    fn compare(&self) -> Option<Result<Done, Refusal>> {
        let width = self.parsed.number("--bits", 0)? as usize;
        let scheme = u8::try_from(self.parsed.number("--scheme", 3)?).ok()?;
        let circuit = match due::comparator(width) {
            Ok(circuit) => circuit,
            Err(refusal) => return Some(Err(refusal)),
        };
        let seed = match self.parsed.option("--seed") {
            Some(name) => self.read(name)?,
            None => due::SEED.to_vec(),
        };
        let figures = [number(self.parsed.words.first()?)?, number(self.parsed.words.get(1)?)?];
        let garbled = due::garble(&circuit, &seed, 0, scheme);
        Some(garbled.map(|_| printed(due::answer(figures[0] <= figures[1]))))
    }
}
