//! A reader of stored cases: JSON lines whose values are strings, integers and lists of these.

use std::collections::BTreeMap;

use crate::call::{Call, Operation, Outcome};
use crate::circuit::Gate;
use crate::hex;
use crate::lines;
use crate::refused::Refused;

/// What a case asks and the answer it gives.
#[derive(Clone, Debug)]
pub enum Asked {
    /// A call of an operation.
    Call {
        /// The call.
        call: Box<Call>,
        /// What must come of it.
        expected: Outcome,
    },
    /// A run of the program.
    Program {
        /// The bytes on standard input.
        input: Vec<u8>,
        /// The text that must come on standard output.
        output: String,
    },
}

/// A stored case.
#[derive(Clone, Debug)]
pub struct Case {
    /// Its number.
    pub id: u64,
    /// Its operation, as the file names it.
    pub op: String,
    /// What it was made for.
    pub aim: String,
    /// The question and the answer.
    pub asked: Asked,
}

/// Reads all cases, or says which line is at fault.
pub fn read(text: &str) -> Result<Vec<Case>, String> {
    let mut cases = Vec::new();
    for (index, line) in text.lines().enumerate() {
        let case = Fields::read(line).and_then(|fields| fields.case());
        cases.push(case.map_err(|fault| format!("line {}: {fault}", index + 1))?);
    }
    Ok(cases)
}

#[derive(Debug)]
enum Value {
    Text(String),
    Number(u64),
    List(Vec<Value>),
}

/// What is left of a line.
struct Line<'a>(&'a str);

impl Line<'_> {
    /// Takes `mark`, after blanks, if it comes next.
    fn take(&mut self, mark: char) -> bool {
        let rest = self.0.trim_start().strip_prefix(mark);
        self.0 = rest.unwrap_or(self.0);
        rest.is_some()
    }

    fn need(&mut self, mark: char) -> Result<(), String> {
        let shown: String = self.0.chars().take(20).collect();
        let fault = format!("{mark:?} expected before {shown:?}");
        self.take(mark).then_some(()).ok_or(fault)
    }

    fn value(&mut self) -> Result<Value, String> {
        if self.take('"') {
            return self.text().map(Value::Text);
        }
        if self.take('[') {
            return self.list().map(Value::List);
        }
        self.0 = self.0.trim_start();
        let end = self.0.find(|letter: char| !letter.is_ascii_digit());
        let (digits, rest) = self.0.split_at(end.unwrap_or(self.0.len()));
        self.0 = rest;
        let number = digits.parse().map_err(|_| format!("no value: {digits:?}"));
        number.map(Value::Number)
    }

    /// The rest of a string, up to its closing mark.
    fn text(&mut self) -> Result<String, String> {
        let mut text = String::new();
        let mut letters = self.0.chars();
        loop {
            match letters.next() {
                Some('"') => break,
                Some('\\') => match letters.next() {
                    Some('n') => text.push('\n'),
                    Some(letter @ ('"' | '\\' | '/')) => text.push(letter),
                    other => return Err(format!("unknown escape {other:?}")),
                },
                Some(letter) => text.push(letter),
                None => return Err("a string without an end".to_string()),
            }
        }
        self.0 = letters.as_str();
        Ok(text)
    }

    /// The rest of a list, up to its closing bracket.
    fn list(&mut self) -> Result<Vec<Value>, String> {
        let mut items = Vec::new();
        if self.take(']') {
            return Ok(items);
        }
        loop {
            items.push(self.value()?);
            if self.take(']') {
                return Ok(items);
            }
            self.need(',')?;
        }
    }
}

/// The fields of one line.
struct Fields(BTreeMap<String, Value>);

impl Fields {
    fn read(line: &str) -> Result<Fields, String> {
        let mut line = Line(line);
        let mut fields = BTreeMap::new();
        line.need('{')?;
        loop {
            line.need('"')?;
            let name = line.text()?;
            line.need(':')?;
            fields.insert(name, line.value()?);
            if line.take('}') {
                break;
            }
            line.need(',')?;
        }
        let whole = line.0.trim().is_empty();
        let fault = "something after the closing brace";
        whole.then_some(Fields(fields)).ok_or(fault.to_string())
    }

    fn text(&self, name: &str) -> Result<&str, String> {
        match self.0.get(name) {
            Some(Value::Text(text)) => Ok(text),
            other => Err(format!("{name}: a string expected, not {other:?}")),
        }
    }

    fn bytes(&self, name: &str) -> Result<Vec<u8>, String> {
        hex::bytes(self.text(name)?).ok_or(format!("{name}: no bytes in hexadecimal"))
    }

    /// A number of the width that its place has.
    fn number<T: TryFrom<u64>>(&self, name: &str) -> Result<T, String> {
        let Some(Value::Number(number)) = self.0.get(name) else {
            return Err(format!("{name}: a number expected"));
        };
        T::try_from(*number).map_err(|_| format!("{name}: {number} is too wide"))
    }

    /// A run number: 16 hexadecimal digits.
    fn run(&self, name: &str) -> Result<u64, String> {
        let bytes = self.bytes(name)?.try_into();
        let number = bytes.map(u64::from_be_bytes);
        number.map_err(|_| format!("{name}: 16 digits expected"))
    }

    /// A mark: 4 hexadecimal digits.
    fn mark(&self, name: &str) -> Result<u16, String> {
        let bytes = self.bytes(name)?.try_into();
        let number = bytes.map(u16::from_be_bytes);
        number.map_err(|_| format!("{name}: 4 digits expected"))
    }

    fn list(&self, name: &str) -> Result<&[Value], String> {
        match self.0.get(name) {
            Some(Value::List(items)) => Ok(items),
            other => Err(format!("{name}: a list expected, not {other:?}")),
        }
    }

    fn numbers(&self, name: &str) -> Result<Vec<u64>, String> {
        let number = |item: &Value| match item {
            Value::Number(number) => Ok(*number),
            other => Err(format!("{name}: a number expected, not {other:?}")),
        };
        self.list(name)?.iter().map(number).collect()
    }

    fn buffers(&self, name: &str) -> Result<Vec<Vec<u8>>, String> {
        let buffer = |item: &Value| match item {
            Value::Text(text) => hex::bytes(text).ok_or(format!("{name}: no bytes")),
            other => Err(format!("{name}: a string expected, not {other:?}")),
        };
        self.list(name)?.iter().map(buffer).collect()
    }

    fn case(&self) -> Result<Case, String> {
        let op = self.text("op")?;
        let asked = if op == "program" {
            Asked::Program {
                input: self.bytes("stdin")?,
                output: self.text("stdout")?.to_string(),
            }
        } else {
            let call = self.call(op)?;
            let expected = self.expected(&call)?;
            let call = Box::new(call);
            Asked::Call { call, expected }
        };
        Ok(Case {
            id: self.number("id")?,
            op: op.to_string(),
            aim: self.text("aim")?.to_string(),
            asked,
        })
    }

    fn call(&self, op: &str) -> Result<Call, String> {
        let mut call = Call {
            operation: operation(op)?,
            ..Call::default()
        };
        for name in self.0.keys() {
            match name.as_str() {
                "circuit" => call.circuit = self.bytes(name)?,
                "n" => call.n = self.number(name)?,
                "m" => call.m = self.number(name)?,
                "gates" => call.gates = self.gates()?,
                "seed" => call.seed = self.bytes(name)?,
                "run" => call.run = self.run(name)?,
                "scheme" => call.scheme = self.number(name)?,
                "mark" => call.mark = self.mark(name)?,
                "values" => call.values = self.bytes(name)?,
                "zero" => call.zero = self.bytes(name)?,
                "one" => call.one = self.bytes(name)?,
                "tokens" => call.tokens = self.bytes(name)?,
                "material" => call.material = self.bytes(name)?,
                "wire" => call.wire = self.number(name)?,
                "bit" => call.bit = self.number(name)?,
                "fill" => call.fill = self.number(name)?,
                "lens" => {
                    let lens = self.numbers(name)?;
                    call.lens = lens.into_iter().map(|len| len as usize).collect();
                }
                "id" | "op" | "aim" | "gates_repeat" => {}
                "ok" | "refused" | "bufs" | "part" => {}
                other => return Err(format!("unknown field {other:?}")),
            }
        }
        Ok(call)
    }

    /// The gates of the list form: 5 bytes a record, the whole list repeated.
    fn gates(&self) -> Result<Vec<Gate>, String> {
        let records = self.bytes("gates")?;
        let list: Vec<Gate> = records.chunks_exact(5).map(lines::gate).collect();
        Ok(list.repeat(self.number("gates_repeat")?))
    }

    fn expected(&self, call: &Call) -> Result<Outcome, String> {
        let answer = if self.0.contains_key("refused") {
            let refused = self.numbers("refused")?;
            let [number, place] = refused[..] else {
                return Err(format!("refused: a number and a place, not {refused:?}"));
            };
            let number = number as u8;
            Err(Refused { number, place })
        } else if call.operation == Operation::Pick {
            Ok(Vec::new())
        } else {
            Ok(self.numbers("ok")?)
        };
        let buffers = match (call.operation, &answer) {
            (Operation::Check, _) => Vec::new(),
            (Operation::Pick, _) => vec![self.bytes("part")?],
            (_, Ok(_)) => self.buffers("bufs")?,
            // Refused: the buffers are as they were.
            (_, Err(_)) => call.buffers(),
        };
        Ok(Outcome { answer, buffers })
    }
}

/// The operation of a name in the file.
fn operation(op: &str) -> Result<Operation, String> {
    Ok(match op {
        "check" => Operation::Check,
        "plain" => Operation::Plain,
        "garble" => Operation::Garble,
        "encode" => Operation::Encode,
        "evaluate" => Operation::Evaluate,
        "evaluate_list" => Operation::EvaluateGates,
        "decode" => Operation::Decode,
        "pick" => Operation::Pick,
        _ => return Err(format!("unknown operation {op:?}")),
    })
}
