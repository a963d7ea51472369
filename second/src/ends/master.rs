//! The master end (01, "Master").

use super::side::{Effect, Side, GAINED, LOST, NOTHING};
use crate::wire::{address_check, information_check, meaning_check, Meaning, MOST_MESSAGE};

#[derive(Clone, Copy, PartialEq, Eq, Debug)]
pub enum MasterMode {
    Disconnecting,
    Connecting,
    Linked,
}

#[derive(Clone, Copy, PartialEq, Eq, Debug)]
pub struct Master {
    pub mode: MasterMode,
    pub address: u8,
    pub limit: u32,
    /// The tick of the last order.
    pub tick: u32,
    /// The peer-busy mark.
    pub busy: bool,
    /// An order waits for its response.
    pub waiting: bool,
    pub side: Side,
}

/// What an order tells. The information is in the lent buffer.
#[derive(Clone, Copy, PartialEq, Eq, Debug)]
pub struct Ordered {
    pub address: u8,
    pub meaning: Meaning,
    pub size: usize,
}

/// What a response tells: whether it counted as silence, and what it did.
#[derive(Clone, Copy, PartialEq, Eq, Debug)]
pub struct Responded {
    pub silence: bool,
    pub effect: Effect,
}

/// Refusal 15: answer limit outside 1 to 65,535 ticks.
pub fn limit_check(limit: u32) -> Result<(), u8> {
    if (1..=65_535).contains(&limit) {
        Ok(())
    } else {
        Err(15)
    }
}

impl Master {
    /// Making a master: refusals 8, 15. A fresh master is disconnecting.
    pub fn make(address: u8, limit: u32) -> Result<Master, u8> {
        address_check(address)?;
        limit_check(limit)?;
        Ok(Master {
            mode: MasterMode::Disconnecting,
            address,
            limit,
            tick: 0,
            busy: false,
            waiting: false,
            side: Side::fresh(),
        })
    }

    /// Refusal 30 of a master.
    pub fn check(&self) -> Result<(), u8> {
        let sound = self.side.sound()
            && address_check(self.address).is_ok()
            && limit_check(self.limit).is_ok();
        if sound {
            Ok(())
        } else {
            Err(30)
        }
    }

    /// Put: refusals 30, 10, 12, 13.
    pub fn put(mut self, message: &[u8]) -> (Master, Result<(), u8>) {
        let answer = self.check().and_then(|()| self.side.put(message));
        (self, answer)
    }

    /// Take: refusals 30, 14, 11.
    pub fn take(mut self, lent: &mut [u8]) -> (Master, Result<usize, u8>) {
        let answer = self.check().and_then(|()| self.side.take(lent));
        (self, answer)
    }

    /// Restart: refusal 30. Fresh, but slots, sent mark, doubt mark, address and limit are kept.
    pub fn restart(mut self) -> (Master, Result<(), u8>) {
        let answer = self.check();
        if answer.is_ok() {
            self.mode = MasterMode::Disconnecting;
            self.tick = 0;
            self.busy = false;
            self.waiting = false;
            self.side.restart();
        }
        (self, answer)
    }

    /// The owner clears the doubt mark: refusal 30.
    pub fn clear(mut self) -> (Master, Result<(), u8>) {
        let answer = self.check();
        if answer.is_ok() {
            self.side.doubt = false;
        }
        (self, answer)
    }

    /// Order: refusals 30, 17, 11. An order starts the wait.
    pub fn order(mut self, now: u32, lent: &mut [u8]) -> (Master, Result<Ordered, u8>) {
        if let Err(number) = self.order_check(lent) {
            return (self, Err(number));
        }
        self.waiting = true;
        self.tick = now;
        let (meaning, size) = match self.mode {
            MasterMode::Disconnecting => (Meaning::Disc, 0),
            MasterMode::Connecting => (Meaning::Snrm, 0),
            MasterMode::Linked => self.order_linked(lent),
        };
        let ordered = Ordered {
            address: self.address,
            meaning,
            size,
        };
        (self, Ok(ordered))
    }

    fn order_check(&self, lent: &[u8]) -> Result<(), u8> {
        self.check()?;
        if self.waiting {
            return Err(17);
        }
        if lent.len() < MOST_MESSAGE {
            return Err(11);
        }
        Ok(())
    }

    /// Linked: RNR if the incoming slot is full, else I if a message is held and the peer isn't
    /// marked busy, else RR.
    fn order_linked(&mut self, lent: &mut [u8]) -> (Meaning, usize) {
        if self.side.full() {
            (Meaning::Rnr { nr: self.side.nr }, 0)
        } else if self.side.holds() && !self.busy {
            self.side.give_out(lent)
        } else {
            (Meaning::Rr { nr: self.side.nr }, 0)
        }
    }

    /// Response: refusals 30, 16, 9, 10, 12. One not refused ends the wait; a late one or one from
    /// another address counts as silence (01, "Late or strange responses").
    pub fn response(
        mut self,
        now: u32,
        address: u8,
        meaning: Meaning,
        information: &[u8],
    ) -> (Master, Result<Responded, u8>) {
        if let Err(number) = self.response_check(meaning, information) {
            return (self, Err(number));
        }
        self.waiting = false;
        let age = now.wrapping_sub(self.tick);
        let silence = age >= self.limit || address != self.address;
        let effect = if silence {
            NOTHING
        } else {
            self.hear(meaning, information)
        };
        (self, Ok(Responded { silence, effect }))
    }

    fn response_check(&self, meaning: Meaning, information: &[u8]) -> Result<(), u8> {
        self.check()?;
        if !self.waiting {
            return Err(16);
        }
        meaning_check(meaning)?;
        information_check(meaning, information)
    }

    /// A response in time from the right address, by mode (01, "Master").
    fn hear(&mut self, meaning: Meaning, information: &[u8]) -> Effect {
        match (self.mode, meaning) {
            (MasterMode::Disconnecting, Meaning::Ua) => {
                self.mode = MasterMode::Connecting;
                NOTHING
            }
            (MasterMode::Disconnecting, _) => NOTHING,
            (MasterMode::Connecting, Meaning::Ua) => {
                self.mode = MasterMode::Linked;
                self.side.synchronise();
                self.busy = false;
                GAINED
            }
            (MasterMode::Connecting, _) => {
                self.mode = MasterMode::Disconnecting;
                NOTHING
            }
            (MasterMode::Linked, _) => self.hear_linked(meaning, information),
        }
    }

    /// Linked: RNR heard marks busy, RR or I clears it; irrecoverable or any other frame:
    /// disconnecting.
    fn hear_linked(&mut self, meaning: Meaning, information: &[u8]) -> Effect {
        match self.side.count_rule(meaning, information) {
            Some(effect) => {
                self.busy = matches!(meaning, Meaning::Rnr { .. });
                effect
            }
            None => {
                self.mode = MasterMode::Disconnecting;
                LOST
            }
        }
    }

    /// Silence: refusals 30, 16; ends the wait and changes nothing else.
    pub fn silence(mut self) -> (Master, Result<(), u8>) {
        if let Err(number) = self.check() {
            return (self, Err(number));
        }
        if !self.waiting {
            return (self, Err(16));
        }
        self.waiting = false;
        (self, Ok(()))
    }
}
