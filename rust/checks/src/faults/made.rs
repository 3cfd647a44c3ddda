//! A call as the model made it, and what faults of document 02's P5 to P8 ask of it or change.

use super::{charge, engine, guides, handles};
use model::{Call, Erasure, Lent, Reply, Said};

/// A call as the model made it; a fault changes what it said or left.
pub(super) struct Made<'a> {
    pub call: &'a Call,
    pub before: &'a Lent,
    pub said: Said,
    pub after: &'a mut Lent,
}

/// When a fault shows, and what it changes then; gives whether it showed.
pub(super) type Fault = fn(&mut Made) -> bool;

/// The names of P5's faults.
pub fn of_engine() -> impl Iterator<Item = &'static str> {
    engine::ALL.into_iter().map(|(name, _)| name)
}

/// The names of P6's faults.
pub fn of_handles() -> impl Iterator<Item = &'static str> {
    handles::ALL.into_iter().map(|(name, _)| name)
}

/// The names of P7's faults.
pub fn of_guides() -> impl Iterator<Item = &'static str> {
    guides::ALL.into_iter().map(|(name, _)| name)
}

/// The names of P8's faults that break the sum of what is reported.
pub fn of_sums() -> impl Iterator<Item = &'static str> {
    charge::OF_SUMS.into_iter().map(|(name, _)| name)
}

/// The names of all of P8's faults.
pub fn of_charge() -> impl Iterator<Item = &'static str> {
    of_sums().chain(charge::OF_ANSWERS.into_iter().map(|(name, _)| name))
}

/// What is said with the fault of this name, if there is one and it shows.
pub(super) fn faulty(name: &str, mut made: Made) -> Option<Said> {
    let of_charge = charge::OF_SUMS.into_iter().chain(charge::OF_ANSWERS);
    let others = engine::ALL.into_iter().chain(handles::ALL).chain(guides::ALL);
    let (_, shows) = others.chain(of_charge).find(|(fault, _)| *fault == name)?;
    shows(&mut made).then_some(made.said)
}

impl Made<'_> {
    pub fn is(&self, name: &str) -> bool {
        self.call.name() == name
    }

    /// Whether a call of this name was carried out.
    pub fn carries_out(&self, name: &str) -> bool {
        self.is(name) && self.said.refusal().is_none()
    }

    pub fn refused(&self, number: u32) -> bool {
        self.said.refusal() == Some(number)
    }

    pub fn applies(&self, number: u32) -> bool {
        self.call.applying(self.before).iter().any(|refusal| refusal.number() == number)
    }

    /// Something else is left or said.
    pub fn leaves(&mut self, change: fn(&mut Made)) -> bool {
        change(self);
        true
    }

    /// The call is refused with this number.
    pub fn refuse(&mut self, number: u32) -> bool {
        self.after.clone_from(self.before);
        self.said = match self.call {
            Call::Erase(_) => Said::Erasure(Erasure::Refused { number, burns: 0 }),
            _ => Said::Reply(Reply::Refused(number)),
        };
        true
    }
}
