//! The slave end (01, "Slave").

use super::side::{Effect, Side, GAINED, LOST, NOTHING};
use crate::wire::{address_check, information_check, meaning_check, Meaning, MOST_MESSAGE};

#[derive(Clone, Copy, PartialEq, Eq, Debug)]
pub enum SlaveMode {
    Ndm,
    Nrm,
}

#[derive(Clone, Copy, PartialEq, Eq, Debug)]
pub struct Slave {
    pub mode: SlaveMode,
    pub address: u8,
    pub side: Side,
}

/// What a slave step tells: the response, which goes out from the slave's own address, and what
/// the order did. The information is in the lent buffer.
#[derive(Clone, Copy, PartialEq, Eq, Debug)]
pub struct Stepped {
    pub meaning: Meaning,
    pub size: usize,
    pub effect: Effect,
}

impl Slave {
    /// Making a slave: refusal 8. A fresh slave is in NDM.
    pub fn make(address: u8) -> Result<Slave, u8> {
        address_check(address)?;
        Ok(Slave {
            mode: SlaveMode::Ndm,
            address,
            side: Side::fresh(),
        })
    }

    /// Refusal 30 of a slave.
    pub fn check(&self) -> Result<(), u8> {
        if self.side.sound() && address_check(self.address).is_ok() {
            Ok(())
        } else {
            Err(30)
        }
    }

    /// Put: refusals 30, 10, 12, 13.
    pub fn put(mut self, message: &[u8]) -> (Slave, Result<(), u8>) {
        let answer = self.check().and_then(|()| self.side.put(message));
        (self, answer)
    }

    /// Take: refusals 30, 14, 11.
    pub fn take(mut self, lent: &mut [u8]) -> (Slave, Result<usize, u8>) {
        let answer = self.check().and_then(|()| self.side.take(lent));
        (self, answer)
    }

    /// Restart: refusal 30. Fresh, but slots, sent mark, doubt mark and address are kept.
    pub fn restart(mut self) -> (Slave, Result<(), u8>) {
        let answer = self.check();
        if answer.is_ok() {
            self.mode = SlaveMode::Ndm;
            self.side.restart();
        }
        (self, answer)
    }

    /// The owner clears the doubt mark: refusal 30.
    pub fn clear(mut self) -> (Slave, Result<(), u8>) {
        let answer = self.check();
        if answer.is_ok() {
            self.side.doubt = false;
        }
        (self, answer)
    }

    /// Slave step: refusals 30, 11, 9, 10, 12, 19; then by mode (01, "Slave").
    pub fn step(
        mut self,
        address: u8,
        meaning: Meaning,
        information: &[u8],
        lent: &mut [u8],
    ) -> (Slave, Result<Stepped, u8>) {
        if let Err(number) = self.step_check(address, meaning, information, lent) {
            return (self, Err(number));
        }
        let stepped = match self.mode {
            SlaveMode::Ndm => self.step_in_ndm(meaning),
            SlaveMode::Nrm => self.step_in_nrm(meaning, information, lent),
        };
        (self, Ok(stepped))
    }

    fn step_check(
        &self,
        address: u8,
        meaning: Meaning,
        information: &[u8],
        lent: &[u8],
    ) -> Result<(), u8> {
        self.check()?;
        if lent.len() < MOST_MESSAGE {
            return Err(11);
        }
        meaning_check(meaning)?;
        information_check(meaning, information)?;
        if address != self.address {
            return Err(19);
        }
        Ok(())
    }

    /// NDM: DISC gives UA; SNRM gives UA and NRM; others FRMR.
    fn step_in_ndm(&mut self, meaning: Meaning) -> Stepped {
        let (meaning, effect) = match meaning {
            Meaning::Disc => (Meaning::Ua, NOTHING),
            Meaning::Snrm => {
                self.mode = SlaveMode::Nrm;
                self.side.synchronise();
                (Meaning::Ua, GAINED)
            }
            _ => (Meaning::Frmr, NOTHING),
        };
        Stepped {
            meaning,
            size: 0,
            effect,
        }
    }

    /// NRM: I, RR, RNR by the count rule; irrecoverable or any other frame: FRMR and NDM.
    fn step_in_nrm(&mut self, order: Meaning, information: &[u8], lent: &mut [u8]) -> Stepped {
        let Some(effect) = self.side.count_rule(order, information) else {
            self.mode = SlaveMode::Ndm;
            return Stepped {
                meaning: Meaning::Frmr,
                size: 0,
                effect: LOST,
            };
        };
        let was_rnr = matches!(order, Meaning::Rnr { .. });
        let (meaning, size) = if self.side.holds() && !was_rnr {
            self.side.give_out(lent)
        } else if self.side.full() {
            (Meaning::Rnr { nr: self.side.nr }, 0)
        } else {
            (Meaning::Rr { nr: self.side.nr }, 0)
        };
        Stepped {
            meaning,
            size,
            effect,
        }
    }
}
