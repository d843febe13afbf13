//! Requests by bay number, and the text that `calls` reads and answers
//! (hall.md, "Sessions"; programs.md, "calls").

use crate::book::Book;
use crate::grants::{Grant, Kind};
use crate::hall::{Hall, Handle, Preparing, Refusal, Sealed, BAYS};
use crate::registers::Registers;
use crate::step::{Stop, Turn};
use crate::store::Store;
use std::fmt::{self, Write};

/// One of the nine calls, with what it takes.
#[derive(Clone, PartialEq, Eq, Debug)]
pub enum Call {
    Open,
    Grant(Kind, u16, u16),
    Load(u16, Vec<u8>),
    Set(Registers),
    Seal,
    Turn(u16),
    Look,
    Copy(u16, u32),
    Close,
}

impl Call {
    pub fn name(&self) -> &'static str {
        match self {
            Call::Open => "open",
            Call::Grant(..) => "grant",
            Call::Load(..) => "load",
            Call::Set(_) => "set",
            Call::Seal => "seal",
            Call::Turn(_) => "turn",
            Call::Look => "look",
            Call::Copy(..) => "copy",
            Call::Close => "close",
        }
    }
}

#[derive(Clone, PartialEq, Eq, Debug)]
pub struct Request {
    pub bay: u32,
    pub call: Call,
}

impl fmt::Display for Request {
    fn fmt(&self, f: &mut fmt::Formatter) -> fmt::Result {
        write!(f, "{} {}", self.call.name(), self.bay)?;
        match &self.call {
            Call::Grant(kind, first, last) => write!(f, " {kind} {first} {last}"),
            Call::Load(address, bytes) => write!(f, " {address} {}", hex_or_dash(bytes)),
            Call::Set(registers) => write!(f, " {registers}"),
            Call::Turn(budget) => write!(f, " {budget}"),
            Call::Copy(address, length) => write!(f, " {address} {length}"),
            Call::Open | Call::Seal | Call::Look | Call::Close => Ok(()),
        }
    }
}

#[derive(Clone, PartialEq, Eq, Debug)]
pub enum Reply {
    NoHandle,
    Refused(Refusal),
    Done,
    Turned(Turn),
    State(Registers, Option<Stop>),
    Bytes(Vec<u8>),
}

impl fmt::Display for Reply {
    fn fmt(&self, f: &mut fmt::Formatter) -> fmt::Result {
        match self {
            Reply::NoHandle => f.write_str("no handle"),
            Reply::Refused(refusal) => write!(f, "{refusal}"),
            Reply::Done => f.write_str("done"),
            Reply::Turned(Turn { steps, stop: None }) => write!(f, "spent {steps}"),
            Reply::Turned(Turn {
                steps,
                stop: Some(stop),
            }) => write!(f, "stopped {steps} {stop}"),
            Reply::State(registers, None) => write!(f, "state {registers} running"),
            Reply::State(registers, Some(stop)) => write!(f, "state {registers} stopped {stop}"),
            Reply::Bytes(bytes) => write!(f, "bytes {}", hex_or_dash(bytes)),
        }
    }
}

pub fn hex_or_dash(bytes: &[u8]) -> String {
    if bytes.is_empty() {
        return "-".into();
    }
    let mut text = String::with_capacity(2 * bytes.len());
    for byte in bytes {
        write!(text, "{byte:02X}").expect("writing to a string");
    }
    text
}

/// The handle that is kept for a bay.
#[derive(Default)]
enum Kept {
    #[default]
    None,
    Preparing(Preparing),
    Sealed(Sealed),
}

pub struct Session<S> {
    hall: Hall<S>,
    kept: [Kept; BAYS],
}

/// Makes a call with a handle of either type.
macro_rules! with_either {
    ($kept:expr, $handle:ident => $call:expr) => {
        match $kept {
            Kept::None => return Reply::NoHandle,
            Kept::Preparing($handle) => $call,
            Kept::Sealed($handle) => $call,
        }
    };
}

impl<S: Store> Session<S> {
    pub fn new(store: S, book: &Book) -> Session<S> {
        Session {
            hall: Hall::new(store, book),
            kept: Default::default(),
        }
    }

    pub fn hall(&self) -> &Hall<S> {
        &self.hall
    }

    pub fn serve(&mut self, request: &Request) -> Reply {
        let bay = request.bay as usize;
        if request.call == Call::Open {
            return match self.hall.open(request.bay.into()) {
                Ok(handle) => {
                    self.kept[bay - 1] = Kept::Preparing(handle);
                    Reply::Done
                }
                Err(refusal) => Reply::Refused(refusal),
            };
        }
        if !(1..=BAYS).contains(&bay) {
            return Reply::NoHandle;
        }
        let hall = &mut self.hall;
        let kept = &mut self.kept[bay - 1];
        match &request.call {
            Call::Open => unreachable!("open is served above"),
            Call::Grant(kind, first, last) => match kept {
                Kept::Preparing(handle) => {
                    done(hall.grant(handle, Grant::new(*kind, *first, *last)))
                }
                _ => Reply::NoHandle,
            },
            Call::Load(address, bytes) => {
                done(with_either!(kept, handle => hall.load(handle, *address, bytes)))
            }
            Call::Set(registers) => {
                done(with_either!(kept, handle => hall.set(handle, *registers)))
            }
            Call::Seal => match std::mem::take(kept) {
                Kept::Preparing(handle) => match hall.seal(handle) {
                    Ok(handle) => {
                        *kept = Kept::Sealed(handle);
                        Reply::Done
                    }
                    Err((refusal, handle)) => {
                        *kept = Kept::Preparing(handle);
                        Reply::Refused(refusal)
                    }
                },
                other => {
                    *kept = other;
                    Reply::NoHandle
                }
            },
            Call::Turn(budget) => match kept {
                Kept::Sealed(handle) => answer(hall.turn(handle, *budget), Reply::Turned),
                _ => Reply::NoHandle,
            },
            Call::Look => answer(
                with_either!(kept, handle => hall.look(handle)),
                |(r, stop)| Reply::State(r, stop),
            ),
            Call::Copy(address, length) => answer(
                with_either!(kept, handle => hall.copy(handle, *address, *length as usize)),
                Reply::Bytes,
            ),
            Call::Close => match std::mem::take(kept) {
                Kept::None => Reply::NoHandle,
                Kept::Preparing(handle) => close(hall, handle, Kept::Preparing, kept),
                Kept::Sealed(handle) => close(hall, handle, Kept::Sealed, kept),
            },
        }
    }
}

/// Closes a bay; a handle that is given back is kept.
fn close<S: Store, H: Handle>(
    hall: &mut Hall<S>,
    handle: H,
    keep: fn(H) -> Kept,
    kept: &mut Kept,
) -> Reply {
    match hall.close(handle) {
        Ok(()) => Reply::Done,
        Err((refusal, handle)) => {
            *kept = keep(handle);
            Reply::Refused(refusal)
        }
    }
}

fn answer<T>(result: Result<T, Refusal>, reply: impl FnOnce(T) -> Reply) -> Reply {
    result.map_or_else(Reply::Refused, reply)
}

fn done(result: Result<(), Refusal>) -> Reply {
    answer(result, |()| Reply::Done)
}

#[cfg(test)]
mod tests;
