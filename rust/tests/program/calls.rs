//! Commands that are right, with what each reads, writes and prints: every command, in each of its forms.

use super::due;
use super::world::World;

/// What stands after an option, or alone.
#[derive(Clone, Debug)]
pub enum Value {
    /// Nothing: the option takes no value.
    Nothing,
    Text(String),
    /// A file that is read.
    Read(&'static str),
    /// A file of the world, which is written under another name.
    Write(&'static str),
    /// A file that has a figure, which is to have so many bits.
    Figure(&'static str, usize),
}

/// An option and its value, or a value alone, where the option is empty.
#[derive(Clone, Debug)]
pub struct Argument {
    pub option: &'static str,
    pub value: Value,
}

#[derive(Clone, Debug)]
pub struct Call {
    pub command: &'static str,
    pub arguments: Vec<Argument>,
    pub prints: String,
}

/// The name under which a file of the world is written.
pub fn new_name(file: &str) -> String {
    format!("new.{file}")
}

impl Value {
    /// The word that stands for it.
    pub fn word(&self) -> Option<String> {
        match self {
            Self::Nothing => None,
            Self::Text(text) => Some(text.clone()),
            Self::Read(file) => Some((*file).to_owned()),
            Self::Write(file) => Some(new_name(file)),
            Self::Figure(file, bits) => Some(format!("@{file}:{bits}")),
        }
    }

    /// The file that is read.
    pub fn read(&self) -> Option<&'static str> {
        match self {
            Self::Read(file) | Self::Figure(file, _) => Some(file),
            _ => None,
        }
    }

    /// The file that is written.
    pub fn written(&self) -> Option<&'static str> {
        match self {
            Self::Write(file) => Some(file),
            _ => None,
        }
    }

    /// The same over standard input or standard output, where it is a file.
    fn over_streams(&self) -> Self {
        match self {
            Self::Read(_) | Self::Write(_) => Self::Text("-".to_owned()),
            Self::Figure(_, bits) => Self::Text(format!("@-:{bits}")),
            other => other.clone(),
        }
    }
}

impl Call {
    pub fn of(command: &'static str) -> Self {
        let (arguments, prints) = (Vec::new(), String::new());
        Self {
            command,
            arguments,
            prints,
        }
    }

    pub fn with(mut self, option: &'static str, value: Value) -> Self {
        self.arguments.push(Argument { option, value });
        self
    }

    pub fn text(self, option: &'static str, text: impl ToString) -> Self {
        self.with(option, Value::Text(text.to_string()))
    }

    pub fn reads(self, option: &'static str, file: &'static str) -> Self {
        self.with(option, Value::Read(file))
    }

    pub fn writes(self, option: &'static str, file: &'static str) -> Self {
        self.with(option, Value::Write(file))
    }

    pub fn prints(mut self, text: impl Into<String>) -> Self {
        self.prints = text.into();
        self
    }

    /// The words as they are typed.
    pub fn words(&self) -> Vec<String> {
        let mut words = vec![self.command.to_owned()];
        for argument in &self.arguments {
            words.extend((!argument.option.is_empty()).then(|| argument.option.to_owned()));
            words.extend(argument.value.word());
        }
        words
    }

    /// The words with each option's value after an equals sign.
    pub fn joined_words(&self) -> Vec<String> {
        let mut words = vec![self.command.to_owned()];
        for Argument { option, value } in &self.arguments {
            words.push(match value.word() {
                Some(value) if option.is_empty() => value,
                Some(value) => format!("{option}={value}"),
                None => (*option).to_owned(),
            });
        }
        words
    }

    /// The same call with one file, by its argument's index, over standard input or standard output.
    pub fn over_streams(&self, index: usize) -> Self {
        let mut call = self.clone();
        call.arguments[index].value = call.arguments[index].value.over_streams();
        call
    }

    /// The files that are read, with the indices of their arguments.
    pub fn all_read(&self) -> Vec<(usize, &'static str)> {
        let files = self.arguments.iter().enumerate();
        let read = files.filter_map(|(index, argument)| argument.value.read().map(|file| (index, file)));
        read.collect()
    }

    /// The files that are written, with the indices of their arguments.
    pub fn all_written(&self) -> Vec<(usize, &'static str)> {
        let files = self.arguments.iter().enumerate();
        let written = files.filter_map(|(index, argument)| argument.value.written().map(|file| (index, file)));
        written.collect()
    }
}

/// Right calls of every command but `compare` and `seed`, whose results are not the world's.
pub fn calls(world: &World) -> Vec<Call> {
    let circuit = Call::of("comparator").text("--bits", world.width);
    let mut calls = vec![
        circuit.writes("--out", "circuit"),
        Call::of("sizes")
            .reads("", "circuit")
            .prints(due::sizes(world.file("circuit")).expect("accepted")),
    ];
    calls.extend(garblings(world));
    calls.extend(encodings(world));
    calls.extend(picks(world));
    calls.extend(evaluations());
    calls.extend(answers(world));
    calls.extend(plain(world));
    calls
}

fn garblings(world: &World) -> [Call; 2] {
    let mut garble = Call::of("garble")
        .reads("", "circuit")
        .reads("--seed", "seed")
        .text("--run", world.run)
        .text("--scheme", world.scheme);
    if world.mark == due::HASHES {
        garble = garble.with("--hashed", Value::Nothing);
    }
    let garble = garble
        .writes("--material", "material")
        .writes("--zeros", "zeros")
        .writes("--ones", "ones");
    [garble.clone().writes("--all-zeros", "all-zeros"), garble]
}

/// The figures of both sides, in words and out of files.
fn figures(call: Call, world: &World, from_files: bool) -> Call {
    let bits = world.width;
    if from_files {
        let call = call.with("--figure", Value::Figure("price", bits));
        return call.with("--figure", Value::Figure("ceiling", bits));
    }
    let call = call.text("--figure", format!("{}:{bits}", world.price));
    call.text("--figure", format!("{}:{bits}", world.ceiling))
}

fn encodings(world: &World) -> [Call; 3] {
    let encode = Call::of("encode")
        .reads("", "circuit")
        .reads("--zeros", "zeros")
        .reads("--ones", "ones")
        .writes("--out", "tokens");
    [
        encode.clone().reads("--values", "values"),
        figures(encode.clone(), world, false),
        figures(encode, world, true),
    ]
}

fn picks(world: &World) -> [Call; 3] {
    let bits = world.width;
    let pick = |out| {
        let call = Call::of("pick").writes("--out", out).reads("--zeros", "zeros");
        call.reads("--ones", "ones")
    };
    let price = format!("{}:{bits}", world.price);
    let ceiling = Value::Figure("ceiling", bits);
    // The answer's bit says nothing of a token: bit 0 of wire 1 gives the first zero token.
    let first = Call::of("pick").reads("--zeros", "zeros").reads("--ones", "ones");
    [
        pick("price.tokens").text("--wire", 1).text("--figure", price),
        pick("ceiling.tokens")
            .text("--wire", bits + 1)
            .with("--figure", ceiling),
        first.text("--wire", 1).text("--bit", 0).writes("--out", "first-zero"),
    ]
}

fn evaluations() -> [Call; 3] {
    let evaluate = Call::of("evaluate")
        .reads("", "circuit")
        .reads("--material", "material");
    let whole = evaluate.clone().reads("--tokens", "tokens").writes("--out", "outputs");
    let parts = evaluate.reads("--tokens", "price.tokens");
    [
        whole.clone(),
        parts.reads("--tokens", "ceiling.tokens").writes("--out", "outputs"),
        whole.writes("--wires", "wires"),
    ]
}

fn answers(world: &World) -> [Call; 3] {
    let decode = Call::of("decode")
        .reads("", "circuit")
        .reads("--material", "material")
        .reads("--outputs", "outputs");
    let answer = due::answer(world.price <= world.ceiling);
    [
        decode.clone().prints(due::digits(world.file("bits"))),
        decode.clone().with("--yes-no", Value::Nothing).prints(answer),
        decode.writes("--out", "bits"),
    ]
}

fn plain(world: &World) -> [Call; 3] {
    let plain = Call::of("plain").reads("", "circuit");
    let bits = due::digits(world.file("bits"));
    [
        plain.clone().reads("--values", "values").prints(bits.clone()),
        figures(plain.clone(), world, true).prints(bits),
        figures(plain, world, false).writes("--wires", "plain-wires"),
    ]
}
