//! The Rust oracle: runs scripts of calls (grammar: tools/model/README.md) on the
//! unchanged writer of parquet-variant 60.1.0.
//!
//! One answer line for each call line:
//!   new                       a fresh builder was made
//!   ok                        the call was accepted
//!   ok value=HEX dict=HEX     finish was accepted
//!   refused 6 | 10 | 15       the crate refused, by document 01's number
//!   outside                   the call is no call of the Rust's borrow rules or
//!                             types here; nothing was done and the run goes on
//!
//! A nested builder borrows its parent, so the script is walked by recursion:
//! open = a child builder in scope, close = finish(), roll back = drop.
mod script;

use parquet_variant::{BuilderSpecificState, ListBuilder, ObjectBuilder, VariantBuilder};
use script::{Call, Kind, parse};
use std::io::{BufRead, BufWriter, Write};

/// How a container's level ended.
#[derive(PartialEq)]
enum End {
    /// Closed or rolled back: the parent goes on.
    Child,
    /// The run's calls are used up: every level is dropped.
    Run,
}

/// The calls of one run and the answers so far.
struct Io<'c> {
    calls: &'c [Call],
    at: usize,
    answers: Vec<String>,
}

impl<'c> Io<'c> {
    fn next(&mut self) -> Option<&'c Call> {
        let call = self.calls.get(self.at);
        self.at += 1;
        call
    }
    fn say(&mut self, answer: impl Into<String>) {
        self.answers.push(answer.into());
    }
    fn ok(&mut self) {
        self.say("ok");
    }
    /// Accepted, or refused with the only number that can stand at this place.
    fn ok_or<E>(&mut self, number: u32, result: Result<(), E>) {
        match result {
            Ok(()) => self.ok(),
            Err(_) => self.say(format!("refused {number}")),
        }
    }
}

fn hex(bytes: &[u8]) -> String {
    use std::fmt::Write;
    let mut s = String::with_capacity(2 * bytes.len());
    for b in bytes {
        write!(s, "{b:02x}").unwrap();
    }
    s
}

fn fresh(unique: bool) -> VariantBuilder {
    VariantBuilder::new().with_validate_unique_fields(unique)
}

/// Runs calls at the top level until they are used up.
fn top_level(unique: bool, io: &mut Io) {
    let mut builder = Some(fresh(unique));
    while let Some(call) = io.next() {
        let Some(b) = builder.as_mut() else {
            io.say("outside"); // finish has consumed the builder
            continue;
        };
        match call {
            Call::Register(name) => match std::str::from_utf8(name) {
                Ok(name) => {
                    b.add_field_name(name);
                    io.ok();
                }
                Err(_) => io.say("outside"),
            },
            Call::Append(None, scalar) => match scalar.variant() {
                Some(v) => {
                    let result = b.try_append_value(v);
                    io.ok_or(6, result);
                }
                None => io.say("outside"),
            },
            Call::Open(None, Kind::List) => match b.try_new_list() {
                Ok(child) => {
                    io.ok();
                    list_level(child, io);
                }
                Err(_) => io.say("refused 6"),
            },
            Call::Open(None, Kind::Object) => match b.try_new_object() {
                Ok(child) => {
                    io.ok();
                    object_level(child, io);
                }
                Err(_) => io.say("refused 6"),
            },
            Call::Finish => match builder.take().unwrap().try_finish() {
                Ok((dictionary, value)) => {
                    io.say(format!("ok value={} dict={}", hex(&value), hex(&dictionary)));
                }
                Err(_) => {
                    io.say("refused 15");
                    // try_finish took the builder. Its like is made again by the same calls.
                    builder = Some(again(unique, &io.calls[..io.at - 1]));
                }
            },
            _ => io.say("outside"),
        }
    }
}

/// The builder that `calls`, which hold no accepted finish and leave nothing open, lead to.
fn again(unique: bool, calls: &[Call]) -> VariantBuilder {
    let mut builder = fresh(unique);
    let mut io = Io { calls, at: 0, answers: vec![] };
    while let Some(call) = io.next() {
        match call {
            Call::Register(name) => {
                if let Ok(name) = std::str::from_utf8(name) {
                    builder.add_field_name(name);
                }
            }
            Call::Append(None, scalar) => {
                if let Some(v) = scalar.variant() {
                    let _ = builder.try_append_value(v);
                }
            }
            Call::Open(None, Kind::List) => {
                if let Ok(child) = builder.try_new_list() {
                    list_level(child, &mut io);
                }
            }
            Call::Open(None, Kind::Object) => {
                if let Ok(child) = builder.try_new_object() {
                    object_level(child, &mut io);
                }
            }
            _ => {}
        }
    }
    builder
}

fn list_level<S: BuilderSpecificState>(mut b: ListBuilder<'_, S>, io: &mut Io) -> End {
    while let Some(call) = io.next() {
        match call {
            Call::Append(None, scalar) => match scalar.variant() {
                Some(v) => {
                    b.try_append_value(v).expect("a list takes every scalar");
                    io.ok();
                }
                None => io.say("outside"),
            },
            Call::Open(None, kind) => {
                io.ok();
                let end = match kind {
                    Kind::List => list_level(b.new_list(), io),
                    Kind::Object => object_level(b.new_object(), io),
                };
                if end == End::Run {
                    return End::Run;
                }
            }
            Call::Close => {
                b.finish();
                io.ok();
                return End::Child;
            }
            Call::RollBack => {
                drop(b);
                io.ok();
                return End::Child;
            }
            _ => io.say("outside"),
        }
    }
    End::Run
}

fn object_level<S: BuilderSpecificState>(mut b: ObjectBuilder<'_, S>, io: &mut Io) -> End {
    while let Some(call) = io.next() {
        match call {
            Call::Append(Some(name), scalar) => {
                match (std::str::from_utf8(name), scalar.variant()) {
                    (Ok(name), Some(v)) => {
                        let result = b.try_insert(name, v);
                        io.ok_or(10, result);
                    }
                    _ => io.say("outside"),
                }
            }
            Call::Open(Some(name), kind) => {
                let Ok(name) = std::str::from_utf8(name) else {
                    io.say("outside");
                    continue;
                };
                let end = match kind {
                    Kind::List => match b.try_new_list(name) {
                        Ok(child) => {
                            io.ok();
                            list_level(child, io)
                        }
                        Err(_) => {
                            io.say("refused 10");
                            End::Child
                        }
                    },
                    Kind::Object => match b.try_new_object(name) {
                        Ok(child) => {
                            io.ok();
                            object_level(child, io)
                        }
                        Err(_) => {
                            io.say("refused 10");
                            End::Child
                        }
                    },
                };
                if end == End::Run {
                    return End::Run;
                }
            }
            Call::Unique(mark) => {
                b = b.with_validate_unique_fields(*mark);
                io.ok();
            }
            Call::Close => {
                b.finish();
                io.ok();
                return End::Child;
            }
            Call::RollBack => {
                drop(b);
                io.ok();
                return End::Child;
            }
            _ => io.say("outside"),
        }
    }
    End::Run
}

fn run(run: Option<(bool, Vec<Call>)>, out: &mut impl Write) {
    let Some((unique, calls)) = run else { return };
    let mut io = Io { calls: &calls, at: 0, answers: vec![] };
    top_level(unique, &mut io);
    assert_eq!(io.answers.len(), calls.len(), "one answer a call");
    writeln!(out, "new").unwrap();
    for answer in &io.answers {
        writeln!(out, "{answer}").unwrap();
    }
}

fn main() {
    let stdin = std::io::stdin().lock();
    let mut out = BufWriter::new(std::io::stdout().lock());
    let mut current: Option<(bool, Vec<Call>)> = None;
    for (number, line) in stdin.lines().enumerate() {
        let line = line.expect("script is text");
        let call = match parse(&line) {
            Ok(Some(call)) => call,
            Ok(None) => continue,
            Err(message) => panic!("line {}: {message}: {line}", number + 1),
        };
        if let Call::New { unique } = call {
            run(current.take(), &mut out);
            current = Some((unique, vec![]));
        } else {
            let (_, calls) = current.as_mut().expect("a script begins with new");
            calls.push(call);
        }
    }
    run(current, &mut out);
}
