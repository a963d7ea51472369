//! What both ends of a link have in common: counts, slots, marks and the count rule.

use crate::wire::{message_check, Meaning, LEAST_MESSAGE, MOST_MESSAGE};

/// What both kinds of end hold (01, "One end of a link"). A size of 0 is an empty slot; bytes past
/// a size stay as they were.
#[derive(Clone, Copy, PartialEq, Eq, Debug)]
pub struct Side {
    pub ns: u8,
    pub nr: u8,
    pub held: [u8; MOST_MESSAGE],
    pub held_size: usize,
    pub sent: bool,
    pub incoming: [u8; MOST_MESSAGE],
    pub incoming_size: usize,
    pub doubt: bool,
}

/// What became of the link: a master left linked or a slave left NRM, or the end synchronised.
#[derive(Clone, Copy, PartialEq, Eq, Debug)]
pub enum Link {
    Kept,
    Lost,
    Gained,
}

/// What a frame did to an end: a held message released by its Nr, its own message handed over.
#[derive(Clone, Copy, PartialEq, Eq, Debug)]
pub struct Effect {
    pub confirmed: bool,
    pub handed_over: bool,
    pub link: Link,
}

pub(super) const NOTHING: Effect = Effect {
    confirmed: false,
    handed_over: false,
    link: Link::Kept,
};

pub(super) const LOST: Effect = Effect {
    link: Link::Lost,
    ..NOTHING
};

pub(super) const GAINED: Effect = Effect {
    link: Link::Gained,
    ..NOTHING
};

/// A count runs 0 to 7 and is followed by 0 after 7.
pub fn next_count(count: u8) -> u8 {
    if count == 7 {
        0
    } else {
        count + 1
    }
}

/// A slot is sound if it is empty or its message has 5 to 253 bytes and nothing against 12.
fn slot_sound(bytes: &[u8; MOST_MESSAGE], size: usize) -> bool {
    if size == 0 {
        return true;
    }
    if !(LEAST_MESSAGE..=MOST_MESSAGE).contains(&size) {
        return false;
    }
    message_check(&bytes[..size]).is_ok()
}

impl Side {
    /// Both counts zero, both slots empty and no mark.
    pub(super) fn fresh() -> Side {
        Side {
            ns: 0,
            nr: 0,
            held: [0; MOST_MESSAGE],
            held_size: 0,
            sent: false,
            incoming: [0; MOST_MESSAGE],
            incoming_size: 0,
            doubt: false,
        }
    }

    pub fn holds(&self) -> bool {
        self.held_size != 0
    }

    pub fn full(&self) -> bool {
        self.incoming_size != 0
    }

    /// What refusal 30 asks of both kinds of end.
    pub(super) fn sound(&self) -> bool {
        self.ns <= 7
            && self.nr <= 7
            && slot_sound(&self.held, self.held_size)
            && slot_sound(&self.incoming, self.incoming_size)
            && (self.holds() || !self.sent)
    }

    /// Put: refusals 10, 12, 13; makes the message the held one, unsent.
    pub(super) fn put(&mut self, message: &[u8]) -> Result<(), u8> {
        message_check(message)?;
        if self.holds() {
            return Err(13);
        }
        self.held[..message.len()].copy_from_slice(message);
        self.held_size = message.len();
        self.sent = false;
        Ok(())
    }

    /// Take: refusals 14, 11; gives the size and empties the slot.
    pub(super) fn take(&mut self, lent: &mut [u8]) -> Result<usize, u8> {
        let size = self.incoming_size;
        if size == 0 {
            return Err(14);
        }
        if size > lent.len() {
            return Err(11);
        }
        lent[..size].copy_from_slice(&self.incoming[..size]);
        self.incoming_size = 0;
        Ok(size)
    }

    /// The held message leaves the end, and its sent mark with it.
    fn release(&mut self) {
        self.held_size = 0;
        self.sent = false;
    }

    /// Gives the held message out in an I frame and marks it sent.
    pub(super) fn give_out(&mut self, lent: &mut [u8]) -> (Meaning, usize) {
        let size = self.held_size;
        lent[..size].copy_from_slice(&self.held[..size]);
        self.sent = true;
        let meaning = Meaning::I {
            ns: self.ns,
            nr: self.nr,
        };
        (meaning, size)
    }

    /// Restart makes the counts fresh and keeps both slots, the sent mark and the doubt mark.
    pub(super) fn restart(&mut self) {
        self.ns = 0;
        self.nr = 0;
    }

    /// Synchronising: counts to zero; a held message already sent is dropped and the doubt mark
    /// set; an unsent one stays.
    pub(super) fn synchronise(&mut self) {
        self.ns = 0;
        self.nr = 0;
        if self.holds() && self.sent {
            self.release();
            self.doubt = true;
        }
    }

    /// The count rule for I, RR, RNR; none where the frame is irrecoverable (or of another kind),
    /// and then nothing has changed.
    pub(super) fn count_rule(&mut self, meaning: Meaning, information: &[u8]) -> Option<Effect> {
        let (ns, nr) = match meaning {
            Meaning::I { ns, nr } => (Some(ns), nr),
            Meaning::Rr { nr } | Meaning::Rnr { nr } => (None, nr),
            _ => return None,
        };
        let confirms = nr == next_count(self.ns);
        if nr != self.ns && !confirms {
            return None;
        }
        let new = ns == Some(self.nr);
        let duplicate = ns.map(next_count) == Some(self.nr);
        if ns.is_some() && !new && !duplicate {
            return None;
        }
        let mut effect = NOTHING;
        if confirms {
            effect.confirmed = self.holds();
            self.release();
            self.ns = next_count(self.ns);
        }
        if new && !self.full() {
            self.incoming[..information.len()].copy_from_slice(information);
            self.incoming_size = information.len();
            self.nr = next_count(self.nr);
            effect.handed_over = true;
        }
        Some(effect)
    }
}
