//! Replays case lines through the C interface. Each lent slice lies against a guard page; inputs
//! must stay as they are, and so must all cells of a refusal's outputs and those past a result.
//!
//! Case and answer lines are those of `conformance/README.md`; a refusal is told by its number.

use std::cell::Cell as Mutable;
use std::env;
use std::fmt::Display;
use std::io::Write;
use std::path::PathBuf;
use std::process::{Command, Stdio};
use std::str::FromStr;
use std::{array, thread};

use tsm::sys;

use crate::data::{path, unhex, Hex};
use crate::lent::{fill, holds_pattern, Cell, Lent, Memory};

/// What is wrong with a line, with a reply, or with lent memory after a call.
pub type Fault = String;

/// How a case is run: its fields are lent, and its answer line is given.
type Act = fn(&mut Replay, &Fields) -> Result<String, Fault>;

/// The acts by name. A call lends the bytes of some fields, and as many bytes and numbers as others
/// say.
#[rustfmt::skip]
const ACTS: &[(&str, Act)] = &[
    ("check", |r, f| r.call(f, [1], [], [], |[image], [], []| checked(sys::check(image)))),
    ("find", |r, f| { let time = f.number(3)?; r.call(f, [1, 2], [], [], |[image, key], [], []| found(sys::find(image, key, time))) }),
    ("read_block", |r, f| { let time = f.number(3)?; r.call(f, [1, 2], [], [4, 5], |[image, key], [], [times, values]| block(sys::read_block(image, key, time, times, values), times, values)) }),
    ("read_point", |r, f| { let time = f.number(3)?; r.call(f, [1, 2], [], [], |[image, key], [], []| point(sys::read_point(image, key, time))) }),
    ("write", |r, f| r.call(f, [1], [2], [], |[roll], [out], []| written(sys::write(roll, out), out))),
    ("unroll", |r, f| r.call(f, [1], [2], [], |[image], [out], []| written(sys::unroll(image, out), out))),
    ("merge", |r, f| r.call(f, [1, 2], [3], [], |[older, newer], [out], []| written(sys::merge(older, newer, out), out))),
    ("program", |_, f| program(&f.bytes(1)?)),
];

/// The fields of a case line, and how many of them, from the first on, were asked for.
pub struct Fields<'a> {
    fields: Vec<&'a str>,
    asked: Mutable<usize>,
}

impl<'a> Fields<'a> {
    fn of(line: &'a str) -> Fields<'a> {
        Fields {
            fields: line.split(' ').collect(),
            asked: Mutable::new(0),
        }
    }

    fn field(&self, place: usize) -> Result<&'a str, Fault> {
        self.asked.set(self.asked.get().max(place + 1));
        let field = self.fields.get(place).copied();
        field.ok_or_else(|| format!("field {place} is missing"))
    }

    /// A line has no more fields than its act asks for.
    fn used_up(&self) -> Result<(), Fault> {
        let asked = self.asked.get();
        match self.fields.len() <= asked {
            true => Ok(()),
            false => Err(format!("field {asked} is one too many")),
        }
    }

    fn bytes(&self, place: usize) -> Result<Vec<u8>, Fault> {
        let field = self.field(place)?;
        let is_hex = field.len() >= 2
            && field.len() % 2 == 0
            && field.bytes().all(|digit| digit.is_ascii_hexdigit());
        match is_hex || field == "-" {
            true => Ok(unhex(field)),
            false => Err(format!("field {place} is no bytes in hex")),
        }
    }

    fn number<T: FromStr<Err: Display>>(&self, place: usize) -> Result<T, Fault> {
        let number = self.field(place)?.parse();
        number.map_err(|error| format!("field {place}: {error}"))
    }
}

/// The memory that calls are lent, against guards on one side.
pub struct Replay {
    inputs: Pool<u8>,
    bytes: Pool<u8>,
    numbers: Pool<i64>,
}

impl Replay {
    pub fn new(memory: impl Memory + Copy + 'static) -> Replay {
        Replay {
            inputs: Pool::new(move || memory.bytes()),
            bytes: Pool::new(move || memory.bytes()),
            numbers: Pool::new(move || memory.numbers()),
        }
    }

    /// The answer line to a case line.
    pub fn answer(&mut self, line: &str) -> Result<String, Fault> {
        let fields = Fields::of(line);
        let name = fields.field(0)?;
        let act = ACTS.iter().find(|(act, _)| *act == name);
        let (_, act) = act.ok_or_else(|| format!("no act is called {name:?}"))?;
        let answer = act(self, &fields)?;
        fields.used_up().map(|()| answer)
    }

    /// Lends the bytes of the fields `inputs`, and outputs of the lengths in the other fields.
    fn call<const I: usize, const B: usize, const N: usize>(
        &mut self,
        fields: &Fields,
        inputs: [usize; I],
        bytes: [usize; B],
        numbers: [usize; N],
        act: impl FnOnce([&[u8]; I], [&mut [u8]; B], [&mut [i64]; N]) -> Told,
    ) -> Result<String, Fault> {
        let given = all(inputs, |place| fields.bytes(place))?;
        let mut inputs = self.inputs.lend(given.each_ref().map(Vec::len));
        for (input, given) in inputs.iter_mut().zip(&given) {
            input.copy_from_slice(given);
        }
        let mut bytes = self.bytes.lend(all(bytes, |place| fields.number(place))?);
        let mut numbers = self
            .numbers
            .lend(all(numbers, |place| fields.number(place))?);
        bytes.iter_mut().for_each(|cells| fill(cells));
        numbers.iter_mut().for_each(|cells| fill(cells));

        let told = act(
            inputs.each_ref().map(|input| &**input),
            bytes.each_mut().map(|cells| &mut **cells),
            numbers.each_mut().map(|cells| &mut **cells),
        );

        let inputs_stay = inputs
            .iter()
            .zip(&given)
            .all(|(input, given)| input == given);
        ensure(inputs_stay, "an input was changed")?;
        bytes.iter().try_for_each(|cells| past(told.laid, cells))?;
        numbers
            .iter()
            .try_for_each(|cells| past(told.laid, cells))?;
        let beside = self.inputs.stays() && self.bytes.stays() && self.numbers.stays();
        ensure(beside, "memory beside what was lent was changed")?;
        ensure(!told.gave, "a refusal gave a number that is not 0")?;
        Ok(told.line)
    }
}

/// What an act told.
struct Told {
    line: String,
    /// How many cells of each output are the result.
    laid: usize,
    /// Whether it is a refusal that gave something besides.
    gave: bool,
}

/// What a reply tells: the result, with the cells that were laid, or a refusal, which must be
/// `bare`: 0 in every other field.
fn told(answer: sys::Answer, bare: bool, laid: usize, result: impl FnOnce() -> String) -> Told {
    let sys::Answer { number } = answer;
    let is_good = number == 0;
    Told {
        line: match is_good {
            true => format!("ok {}", result()),
            false => format!("refused {number}"),
        },
        laid: if is_good { laid } else { 0 },
        gave: !is_good && !bare,
    }
}

fn checked(reply: sys::Checked) -> Told {
    let sys::Checked {
        answer,
        keys,
        points,
    } = reply;
    let bare = sys::Checked {
        answer,
        ..Default::default()
    };
    told(answer, reply == bare, 0, || format!("{keys} {points}"))
}

fn found(reply: sys::Found) -> Told {
    let sys::Found { answer, entry } = reply;
    let bare = sys::Found {
        answer,
        ..Default::default()
    };
    told(answer, reply == bare, 0, || entry_line(entry))
}

fn block(reply: sys::Block, times: &[i64], values: &[i64]) -> Told {
    let sys::Block {
        answer,
        entry,
        count,
    } = reply;
    let bare = sys::Block {
        answer,
        ..Default::default()
    };
    told(answer, reply == bare, count, || {
        let points = times.iter().zip(values).take(count);
        let points = points.map(|(time, value)| format!(" {time}:{value}"));
        format!(
            "{} {count}{}",
            entry_line(entry),
            points.collect::<String>()
        )
    })
}

fn point(reply: sys::Point) -> Told {
    let sys::Point {
        answer,
        entry,
        value,
    } = reply;
    let bare = sys::Point {
        answer,
        ..Default::default()
    };
    told(answer, reply == bare, 0, || {
        format!("{} {value}", entry_line(entry))
    })
}

fn written(reply: sys::Written, out: &[u8]) -> Told {
    let sys::Written { answer, bytes } = reply;
    let bare = sys::Written {
        answer,
        ..Default::default()
    };
    told(answer, reply == bare, bytes, || {
        format!("{bytes} {}", Hex(&out[..bytes.min(out.len())]))
    })
}

fn entry_line(entry: sys::Entry) -> String {
    let sys::Entry {
        kind,
        size,
        min,
        max,
        offset,
    } = entry;
    format!("{kind} {min} {max} {offset} {size}")
}

/// What the program writes for a roll. It is the one that TSM_PROGRAM names, or else the one that
/// stands in target/bin.
fn program(roll: &[u8]) -> Result<String, Fault> {
    let program = match env::var_os("TSM_PROGRAM") {
        Some(program) => PathBuf::from(program),
        None => path("../target/bin/roll_to_tsm"),
    };
    let child = Command::new(&program)
        .stdin(Stdio::piped())
        .stdout(Stdio::piped())
        .spawn();
    let mut child = child.map_err(|error| format!("{}: {error}", program.display()))?;
    let mut input = child.stdin.take().expect("standard input is piped");
    let output = thread::scope(|scope| {
        // The program may stop reading once the roll is too long.
        scope.spawn(move || input.write_all(roll));
        child.wait_with_output()
    });
    let output = output.map_err(|error| error.to_string())?;
    Ok(format!("stdout {}", Hex(&output.stdout)))
}

/// Memory for slices that are lent at the same time.
struct Pool<T> {
    make: Box<dyn Fn() -> Box<dyn Lent<T>>>,
    made: Vec<Box<dyn Lent<T>>>,
}

impl<T: Cell> Pool<T> {
    fn new(make: impl Fn() -> Box<dyn Lent<T>> + 'static) -> Pool<T> {
        Pool {
            make: Box::new(make),
            made: Vec::new(),
        }
    }

    /// Slices of exactly these lengths.
    fn lend<const N: usize>(&mut self, lengths: [usize; N]) -> [&mut [T]; N] {
        self.made.resize_with(N, &self.make);
        let mut slices = self.made.iter_mut().zip(lengths);
        array::from_fn(|_| {
            let (slice, length) = slices.next().expect("as many as lengths");
            slice.lend(length)
        })
    }

    /// Whether the canaries beside the slices are as they were.
    fn stays(&self) -> bool {
        self.made.iter().all(|slice| slice.canaries_live())
    }
}

/// All results, or the first fault.
fn all<T, const N: usize>(
    places: [usize; N],
    read: impl FnMut(usize) -> Result<T, Fault>,
) -> Result<[T; N], Fault> {
    let read: Vec<T> = places.into_iter().map(read).collect::<Result<_, _>>()?;
    Ok(read.try_into().ok().expect("as many as places"))
}

/// The cells of an output past the result are as they were.
fn past<T: Cell>(laid: usize, cells: &[T]) -> Result<(), Fault> {
    let whole = laid <= cells.len();
    ensure(whole, "the result is said to be longer than the output")?;
    let kept = holds_pattern(&cells[laid..], laid);
    ensure(
        kept,
        "an output was changed past the result, or by a refusal",
    )
}

fn ensure(holds: bool, fault: &str) -> Result<(), Fault> {
    holds.then_some(()).ok_or_else(|| fault.to_string())
}

#[cfg(test)]
mod tests {
    use super::*;
    use crate::library::Guarded;

    /// An act that lays one byte, and changes another; one that says it laid too many; a refusal
    /// that gives something.
    #[test]
    fn faults_are_seen() {
        let one = |gave, laid| Told {
            line: String::new(),
            laid,
            gave,
        };
        let acts: [(fn(&mut [u8]), Told, &str); 3] = [
            (
                |out| out[1] = !out[1],
                one(false, 1),
                "an output was changed past the result, or by a refusal",
            ),
            (
                |_| (),
                one(false, 21),
                "the result is said to be longer than the output",
            ),
            (
                |_| (),
                one(true, 0),
                "a refusal gave a number that is not 0",
            ),
        ];
        for (act, told, fault) in acts {
            let mut replay = Replay::new(Guarded::After);
            let fields = Fields::of("lay 20");
            let answer = replay.call(&fields, [], [1], [], |[], [out], []| {
                act(out);
                told
            });
            assert_eq!(answer.unwrap_err(), fault);
        }
    }
}
