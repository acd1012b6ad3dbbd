//! Commands made up from a seed: each case is a few lines about one form, chain or run, and its bytes are made of answers.

use std::io::{self, Write};

use crate::answer::{Answer, Outcome};
use crate::numbers::Numbers;
use crate::rules;
use crate::session::Session;
use crate::words;

const TYPES: [(&str, usize); 10] = [
    ("uint8", 1),
    ("int8", 1),
    ("uint16", 2),
    ("int16", 2),
    ("uint32", 4),
    ("int32", 4),
    ("uint64", 8),
    ("int64", 8),
    ("float32", 4),
    ("float64", 8),
];

struct Generator<'a> {
    numbers: Numbers,
    session: Session,
    out: &'a mut dyn Write,
    /// The most bytes of an array, and how many commands are out.
    bytes: usize,
    written: usize,
}

/// The form of a case.
#[derive(Clone)]
struct Shaped {
    shape: Vec<usize>,
    size: usize,
}

impl Shaped {
    fn bytes(&self) -> usize {
        self.shape.iter().product::<usize>() * self.size
    }
}

/// Makes up cases until there are `count` commands.
pub fn generate(seed: u64, count: usize, bytes: usize, out: &mut dyn Write) -> io::Result<()> {
    let bytes = bytes.clamp(8, rules::LIMIT);
    let mut generator = Generator { numbers: Numbers::new(seed), session: Session::default(), out, bytes, written: 0 };
    while generator.written < count {
        match generator.numbers.below(40) {
            0..=19 => generator.chain_case()?,
            20..=27 => generator.byte_run_case()?,
            28..=31 => generator.array_run_case()?,
            32 | 33 => generator.form_case()?,
            34..=36 => generator.draft_case()?,
            37 | 38 => generator.sum_case()?,
            _ => generator.cache_case()?,
        }
    }
    Ok(())
}

fn joined(values: &[usize], separator: &str) -> String {
    if values.is_empty() {
        return "-".to_string();
    }
    let words: Vec<String> = values.iter().map(usize::to_string).collect();
    words.join(separator)
}

fn stages_word(stages: &[String]) -> String {
    if stages.is_empty() { "-".to_string() } else { stages.join("+") }
}

impl Generator<'_> {
    /// Writes the command and its answer.
    fn ask(&mut self, command: &str) -> io::Result<Answer> {
        let answer = self.session.command(command).map_err(|error| io::Error::other(format!("{command}: {error}")))?;
        writeln!(self.out, "> {command}\n{answer}")?;
        self.written += 1;
        Ok(answer)
    }

    /// The same, if it is a command.
    fn ask_if_taken(&mut self, command: &str) -> io::Result<()> {
        if self.session.command(command).is_ok() {
            self.ask(command)?;
        }
        Ok(())
    }

    /// The bytes of the answer by the rules, if it is one.
    fn ask_bytes(&mut self, command: &str) -> io::Result<Option<Vec<u8>>> {
        let answer = self.ask(command)?;
        Ok(match answer.by_rules() {
            Outcome::Done(text) => words::bytes(text).ok(),
            _ => None,
        })
    }

    fn accepted(&mut self, command: &str) -> io::Result<bool> {
        Ok(matches!(self.ask(command)?.by_rules(), Outcome::Done(_)))
    }

    /// One to four lengths whose product is at most the count, often all of it; all of them odd if that is wanted.
    fn shape(&mut self, count: usize, odd: bool) -> Vec<usize> {
        let taken = |length: usize| if odd && length % 2 == 0 { length - 1 } else { length };
        let mut shape = vec![1; self.numbers.from_to(1, 4)];
        let mut left = count;
        for length in &mut shape {
            *length = taken(self.numbers.spread(1 + left / 2));
            left /= *length;
        }
        if !self.numbers.once_in(4) {
            let axis = self.numbers.below(shape.len());
            shape[axis] *= taken(left);
        }
        shape
    }

    /// Asks for a form that is taken. Only elements of one byte make an odd number of bytes, so they come more often.
    fn form(&mut self) -> io::Result<Shaped> {
        let types = if self.numbers.once_in(3) { &TYPES[..2] } else { &TYPES };
        let (name, size) = self.numbers.one_of(types);
        let most = self.bytes / size;
        let count = if self.numbers.once_in(8) { most } else { self.numbers.spread(most) };
        let odd = self.numbers.once_in(2);
        let shape = self.shape(count, odd);
        let fill = match self.numbers.below(3) {
            0 => vec![0; size],
            _ => self.numbers.bytes(size),
        };
        self.ask(&format!("form {} {name} {}", joined(&shape, "x"), words::hex(&fill)))?;
        Ok(Shaped { shape, size })
    }

    fn order(&mut self, axes: usize) -> String {
        let mut order: Vec<usize> = (0..axes).collect();
        for axis in (1..axes).rev() {
            let other = self.numbers.below(axis + 1);
            order.swap(axis, other);
        }
        joined(&order, ",")
    }

    fn array_stages(&mut self, axes: usize) -> Vec<String> {
        let count = self.numbers.one_of(&[0, 0, 1, 1, 1, 2, 2]);
        (0..count)
            .map(|_| {
                let axes = if self.numbers.once_in(40) { self.numbers.from_to(1, 4) } else { axes };
                if self.numbers.once_in(2) {
                    "difference".to_string()
                } else {
                    format!("transpose:{}", self.order(axes))
                }
            })
            .collect()
    }

    /// An element size that divides the length, but sometimes any.
    fn element_size(&mut self, length: usize) -> usize {
        if self.numbers.once_in(30) {
            return self.numbers.spread(rules::LIMIT);
        }
        let divisors: Vec<usize> = (1..=length.min(rules::LIMIT)).filter(|size| length % size == 0).collect();
        if divisors.is_empty() { self.numbers.from_to(1, 8) } else { self.numbers.one_of(&divisors) }
    }

    /// Byte stages over the length, which mostly take it.
    fn byte_stages(&mut self, length: usize) -> Vec<String> {
        let count = self.numbers.one_of(&[0, 1, 1, 1, 2, 2, 3, 4]);
        let mut length = length;
        (0..count)
            .map(|_| {
                let room = length + 4 <= rules::LIMIT || self.numbers.once_in(8);
                if room && self.numbers.once_in(2) {
                    length += 4;
                    "fletcher32".to_string()
                } else {
                    format!("shuffle:{}", self.element_size(length))
                }
            })
            .collect()
    }

    fn bytes_stage(&mut self, size: usize) -> &'static str {
        match self.numbers.below(20) {
            0 => "bytes:none",
            1..=5 if size == 1 => "bytes:none",
            6..=12 => "bytes:little",
            _ => "bytes:big",
        }
    }

    /// Some bytes changed, or too few or too many of them.
    fn damaged(&mut self, bytes: &[u8]) -> Vec<u8> {
        let mut damaged = bytes.to_vec();
        match self.numbers.below(8) {
            0 => damaged.push(self.numbers.next() as u8),
            1 => damaged.truncate(self.numbers.below(bytes.len() + 1)),
            2 if bytes.len() >= 4 => {
                // only the checksum, or only what is before it
                let i = bytes.len() - 1 - self.numbers.below(4);
                damaged[i] ^= 1 << self.numbers.below(8);
            }
            _ if bytes.is_empty() => damaged.push(0),
            _ => {
                for _ in 0..self.numbers.from_to(1, 3) {
                    let i = self.numbers.below(bytes.len());
                    damaged[i] ^= 1 << self.numbers.below(8);
                }
            }
        }
        damaged
    }

    fn checks(&mut self) -> &'static str {
        self.numbers.one_of(&["on", "off"])
    }

    fn chain_case(&mut self) -> io::Result<()> {
        let form = self.form()?;
        let mut stages = vec![self.bytes_stage(form.size).to_string()];
        if !self.numbers.once_in(8) {
            stages.splice(..0, self.array_stages(form.shape.len()));
            stages.extend(self.byte_stages(form.bytes()));
        }
        if !self.accepted(&format!("chain {}", stages_word(&stages)))? {
            return Ok(());
        }
        if self.numbers.once_in(6) {
            self.ask("singles")?;
            self.ask("lengths -")?;
        }
        let array = self.numbers.bytes(form.bytes());
        let Some(encoded) = self.ask_bytes(&format!("encode {}", words::hex(&array)))? else {
            return Ok(());
        };
        self.ask(&format!("decode on {}", words::hex(&encoded)))?;
        let damaged = self.damaged(&encoded);
        self.ask(&format!("decode on {}", words::hex(&damaged)))?;
        self.ask(&format!("decode off {}", words::hex(&damaged)))?;
        if self.numbers.once_in(6) {
            let other = self.damaged(&array);
            self.ask(&format!("encode {}", words::hex(&other)))?;
        }
        if self.numbers.once_in(3) {
            self.undo("-", stages.len(), &encoded)?;
        }
        if self.numbers.once_in(2) {
            self.chunk(&form, &encoded, stages.len() == 1)?;
        }
        Ok(())
    }

    /// Undoes to a place and on from there, and damaged bytes.
    fn undo(&mut self, length: &str, singles: usize, encoded: &[u8]) -> io::Result<()> {
        let middle = self.numbers.below(singles + 1);
        let checks = self.checks();
        let word = words::hex(encoded);
        if let Some(undone) = self.ask_bytes(&format!("undo {length} 0 {middle} {checks} {word}"))? {
            self.ask(&format!("undo {length} {middle} {singles} {checks} {}", words::hex(&undone)))?;
        }
        let damaged = self.damaged(encoded);
        self.ask(&format!("undo {length} 0 {singles} {checks} {}", words::hex(&damaged)))?;
        if self.numbers.once_in(8) {
            let (from, to) = (self.numbers.below(singles + 2), self.numbers.below(singles + 2));
            self.ask(&format!("undo {length} {from} {to} {checks} {word}"))?;
        }
        Ok(())
    }

    fn byte_run_case(&mut self) -> io::Result<()> {
        let length = match self.numbers.below(10) {
            0 => 0,
            1 => self.numbers.from_to(1, self.bytes),
            2 if self.bytes == rules::LIMIT => self.numbers.from_to(4088, 4100),
            _ => self.numbers.spread(self.bytes),
        };
        let stages = self.byte_stages(length);
        if !self.accepted(&format!("stages {}", stages_word(&stages)))? {
            return Ok(());
        }
        if self.numbers.once_in(4) {
            self.ask("singles")?;
            self.ask(&format!("lengths {length}"))?;
            let other = if self.numbers.once_in(20) { usize::MAX } else { self.numbers.from_to(0, 5000) };
            self.ask(&format!("lengths {other}"))?;
        }
        let decoded = self.numbers.bytes(length);
        let encoded = self.ask_bytes(&format!("encode {}", words::hex(&decoded)))?;
        self.undo(&length.to_string(), stages.len(), &encoded.unwrap_or(decoded))
    }

    fn array_run_case(&mut self) -> io::Result<()> {
        let form = self.form()?;
        let stages = match self.numbers.below(4) {
            0 => vec![self.bytes_stage(form.size).to_string()],
            _ => {
                let stages = self.array_stages(form.shape.len());
                if stages.is_empty() { vec!["difference".to_string()] } else { stages }
            }
        };
        if !self.accepted(&format!("stages {}", stages_word(&stages)))? {
            return Ok(());
        }
        if self.numbers.once_in(4) {
            self.ask("singles")?;
            self.ask("lengths -")?;
        }
        let array = self.numbers.bytes(form.bytes());
        let encoded = self.ask_bytes(&format!("encode {}", words::hex(&array)))?;
        self.undo("-", stages.len(), &encoded.unwrap_or(array))
    }

    /// Forms at and past their limits.
    fn form_case(&mut self) -> io::Result<()> {
        let (name, size) = self.numbers.one_of(&TYPES);
        let dimensions = self.numbers.one_of(&[0, 1, 1, 2, 2, 3, 4, 5]);
        // products of powers of two wrap to 0
        let lengths: &[usize] = match self.numbers.below(4) {
            0 => &[1, 2, 1 << 32, 1 << 62, 1 << 63],
            _ => &[0, 1, 1, 2, 3, 8, 16, 63, 64, 65, 512, 513, 4095, 4096, 4097, 1 << 32, usize::MAX],
        };
        let shape: Vec<usize> = (0..dimensions).map(|_| self.numbers.one_of(lengths)).collect();
        let size = match self.numbers.below(8) {
            0 => self.numbers.below(10),
            _ => size,
        };
        let name = if self.numbers.once_in(10) { self.numbers.one_of(&["string", "optional"]) } else { name };
        let fill = self.numbers.bytes(size);
        // zarrs is not asked everything past 64 bits
        self.ask_if_taken(&format!("form {} {name} {}", joined(&shape, "x"), words::hex(&fill)))
    }

    /// Chains and runs of any stages in any order and number.
    fn draft_case(&mut self) -> io::Result<()> {
        let form = self.form()?;
        let count = self.numbers.below(10);
        let kinds = self.numbers.from_to(0, 3);
        let stages: Vec<String> = (0..count)
            .map(|i| {
                let kind = match kinds {
                    3 if i < count / 3 => 0,
                    3 if i == count / 3 => 1,
                    3 => 2,
                    _ => self.numbers.below(3),
                };
                match kind {
                    0 if self.numbers.once_in(6) => {
                        let entries = self.numbers.from_to(1, 4);
                        let order: Vec<usize> = (0..entries).map(|_| self.numbers.below(5)).collect();
                        format!("transpose:{}", joined(&order, ","))
                    }
                    0 if self.numbers.once_in(2) => format!("transpose:{}", self.order(form.shape.len())),
                    0 => "difference".to_string(),
                    1 => self.bytes_stage(form.size).to_string(),
                    _ if self.numbers.once_in(6) => format!("shuffle:{}", self.numbers.one_of(&[0, 4096, 4097, 65536])),
                    _ if self.numbers.once_in(2) => format!("shuffle:{}", self.element_size(form.bytes())),
                    _ => "fletcher32".to_string(),
                }
            })
            .collect();
        // stages of several kinds are no run
        self.ask_if_taken(&format!("stages {}", stages_word(&stages)))?;
        self.ask(&format!("chain {}", stages_word(&stages)))?;
        Ok(())
    }

    fn sum_case(&mut self) -> io::Result<()> {
        let length = match self.numbers.below(6) {
            0 => 2 * self.numbers.spread(self.bytes / 2),
            1 => self.numbers.below(4),
            2 => self.bytes + self.numbers.spread(self.bytes),
            _ => self.numbers.spread(self.bytes),
        };
        let bytes = self.numbers.bytes(length);
        self.ask(&format!("sum {}", words::hex(&bytes)))?;
        self.ask(&format!("data {}", words::hex(&bytes)))?;
        Ok(())
    }

    /// The cache place of singles of any capabilities.
    fn cache_case(&mut self) -> io::Result<()> {
        let mut singles = |most: usize| -> String {
            let count = self.numbers.below(most + 1);
            let singles: Vec<&str> =
                (0..count).map(|_| self.numbers.one_of(&["yes/yes", "yes/yes", "yes/no", "no/yes", "no/no"])).collect();
            if singles.is_empty() { "-".to_string() } else { singles.join(",") }
        };
        let (bytes, arrays) = (singles(5), singles(4));
        let middle = self.numbers.one_of(&["yes/yes", "yes/yes", "yes/no", "no/yes", "no/no"]);
        self.ask(&format!("cache {bytes} {middle} {arrays}"))?;
        Ok(())
    }

    /// Opens a chunk over a cell with the encoded bytes, with damaged ones or absent, reads it, and writes it where zarrs can.
    fn chunk(&mut self, form: &Shaped, encoded: &[u8], written: bool) -> io::Result<()> {
        let value = match self.numbers.below(8) {
            0 | 1 => None,
            2 => Some(self.damaged(encoded)),
            _ => Some(encoded.to_vec()),
        };
        let size = if self.numbers.once_in(16) { self.numbers.from_to(0, rules::LIMIT) } else { rules::LIMIT };
        match value {
            Some(value) if value.len() <= size => {
                self.ask(&format!("slot {size} {} {}", value.len(), words::hex(&value)))?;
            }
            _ => {
                self.ask(&format!("slot {size} absent -"))?;
            }
        }
        self.ask("open")?;
        if self.numbers.once_in(3) {
            self.ask("kept")?;
        }
        for _ in 0..self.numbers.from_to(1, 6) {
            match self.numbers.below(if written { 4 } else { 2 }) {
                0 => self.box_read(form)?,
                1 => self.range_read(form.bytes())?,
                2 if self.numbers.once_in(4) => {
                    self.ask("erase")?;
                }
                _ => self.write(form)?,
            }
        }
        self.ask("close")?;
        Ok(())
    }

    /// Writes a box, mostly with data of its size, and reads all bytes.
    fn write(&mut self, form: &Shaped) -> io::Result<()> {
        let (start, lengths) = self.a_box(form);
        let elements: u128 = lengths.iter().map(|length| *length as u128).product();
        let size = if elements <= rules::LIMIT as u128 { elements as usize * form.size } else { form.bytes() };
        let size = if self.numbers.once_in(5) { self.numbers.below(size + 2 * form.size) } else { size };
        let data = self.numbers.bytes(size);
        self.ask(&format!("write {} {} {}", joined(&start, ","), joined(&lengths, ","), words::hex(&data)))?;
        self.ask("range from:0")?;
        Ok(())
    }

    /// A box: the whole, one at the edge, an empty one, one past the edge, one of other dimensions, or any.
    fn a_box(&mut self, form: &Shaped) -> (Vec<usize>, Vec<usize>) {
        let kind = self.numbers.below(10);
        let mut start = Vec::new();
        let mut lengths = Vec::new();
        for dimension in &form.shape {
            let from = if kind == 0 { 0 } else { self.numbers.below(*dimension) };
            let rest = dimension - from;
            start.push(from);
            lengths.push(if kind <= 1 { rest } else { self.numbers.from_to(1, rest) });
        }
        let axis = self.numbers.below(form.shape.len());
        match kind {
            2 => {
                start[axis] = self.numbers.from_to(0, form.shape[axis]);
                lengths[axis] = 0;
            }
            3 => lengths[axis] = form.shape[axis] - start[axis] + 1,
            4 if self.numbers.once_in(2) => start[axis] = usize::MAX - self.numbers.below(2),
            4 => lengths[axis] = usize::MAX - self.numbers.below(2),
            5 if self.numbers.once_in(2) => {
                start.push(0);
                lengths.push(1);
            }
            5 => {
                lengths.pop();
            }
            _ => {}
        }
        (start, lengths)
    }

    fn box_read(&mut self, form: &Shaped) -> io::Result<()> {
        let (start, lengths) = self.a_box(form);
        self.ask(&format!("box {} {}", joined(&start, ","), joined(&lengths, ",")))?;
        Ok(())
    }

    /// A range at a limit of the bytes, or any.
    fn range_read(&mut self, length: usize) -> io::Result<()> {
        let offset = match self.numbers.below(6) {
            0 => 0,
            1 => length,
            2 => length + self.numbers.from_to(1, 6),
            3 if self.numbers.once_in(4) => usize::MAX - self.numbers.below(2),
            _ => self.numbers.below(length + 1),
        };
        let rest = length.saturating_sub(offset);
        let count = match self.numbers.below(6) {
            0 => 0,
            1 => rest,
            2 => rest + self.numbers.from_to(1, 6),
            3 if self.numbers.once_in(4) => usize::MAX - self.numbers.below(2),
            _ => self.numbers.below(rest + 1),
        };
        let range = match self.numbers.below(3) {
            0 => format!("at:{offset}:{count}"),
            1 => format!("from:{offset}"),
            _ => format!("last:{offset}"),
        };
        self.ask(&format!("range {range}"))?;
        Ok(())
    }
}
