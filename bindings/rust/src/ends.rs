//! The two ends of a link. Each owns its bytes, in the layout that include/bitbus.h states.

use crate::frame::{Frame, Information, Meaning};
use crate::{header, surface, Refusal};

/// What became of the link in a call.
#[derive(Clone, Copy, Debug, PartialEq, Eq)]
pub enum Link {
    /// It is as it was.
    Same,
    /// A slave went to NRM, a master to linked.
    Gained,
    /// A slave left NRM, a master left linked.
    Lost,
}

impl Link {
    fn given(value: usize) -> Link {
        match value {
            header::LINK_SAME => Link::Same,
            header::LINK_GAINED => Link::Gained,
            _ => Link::Lost,
        }
    }
}

/// A size that a call gives, where 0 means that there is none.
fn some(size: usize) -> Option<usize> {
    (size != 0).then_some(size)
}

/// The message in a slot of a right end; none where its size is 0.
fn slot(end: &[u8], size_at: usize, at: usize) -> Option<&[u8]> {
    // a right end's size is at most 253: one byte of the eight
    some(end[size_at].into()).map(|size| &end[at..at + size])
}

/// What both ends have.
macro_rules! end {
    ($End:ident, $end:ident, $size:ident) => {
        impl $End {
            /// Bytes of an end.
            pub const SIZE: usize = header::$size;

            /// An end out of bytes that were kept. Refused by 30.
            pub fn from_bytes(bytes: [u8; $End::SIZE]) -> Result<$End, Refusal> {
                let mut end = $End { end: bytes };
                // an empty message is refused whatever the end holds: by 30 if it is not right, else by 10
                match end.put(&[]) {
                    Err(Refusal::END) => Err(Refusal::END),
                    _ => Ok(end),
                }
            }

            /// The end's bytes, to be kept.
            pub fn as_bytes(&self) -> &[u8; $End::SIZE] {
                &self.end
            }

            /// Makes the message the held one, unsent. Refused by 10, 12, 13.
            pub fn put(&mut self, message: &[u8]) -> Result<(), Refusal> {
                surface::$end::put(&mut self.end, message)
            }

            /// Takes the waiting message and empties the incoming slot. Refused by 14.
            pub fn take(&mut self) -> Result<Information, Refusal> {
                Information::written(0, |out| surface::$end::take(&mut self.end, out)).map(|(_, message)| message)
            }

            /// Makes the end fresh but for both slots, whether the held message has been sent, the doubt mark, the
            /// address and a master's limit.
            pub fn restart(&mut self) {
                surface::$end::restart(&mut self.end).expect("the end is right")
            }

            /// Clears the mark for messages in doubt.
            pub fn clear(&mut self) {
                surface::$end::clear(&mut self.end).expect("the end is right")
            }

            /// The station's address.
            pub fn address(&self) -> u8 {
                self.end[header::AT_ADDRESS]
            }

            /// The message held for the other end; none where a put has room.
            pub fn held(&self) -> Option<&[u8]> {
                slot(&self.end, header::AT_HELD_SIZE, header::AT_HELD)
            }

            /// Whether the held message has been sent, arrived or lost.
            pub fn sent(&self) -> bool {
                self.end[header::AT_SENT] != 0
            }

            /// The message that waits to be taken.
            pub fn waiting(&self) -> Option<&[u8]> {
                slot(&self.end, header::AT_WAITING_SIZE, header::AT_INCOMING)
            }

            /// The mark for messages in doubt: a message that had been sent was dropped at a synchronisation.
            pub fn doubt(&self) -> bool {
                self.end[header::AT_DOUBT] != 0
            }
        }
    };
}

/// The slave's end of a link.
///
/// ```
/// use bitbus::{Meaning, Slave, SlaveMode};
/// let mut slave = Slave::make(5)?;
/// let answer = slave.step(5, Meaning::Snrm, &[])?;
/// assert_eq!(answer.response.meaning, Meaning::Ua);
/// assert_eq!(slave.mode(), SlaveMode::Nrm);
/// # Ok::<(), bitbus::Refusal>(())
/// ```
#[derive(Clone, Debug, PartialEq, Eq)]
pub struct Slave {
    end: surface::slave::Bytes,
}

end!(Slave, slave, SLAVE_SIZE);

/// A slave's mode.
#[derive(Clone, Copy, Debug, PartialEq, Eq)]
pub enum SlaveMode {
    /// Normal disconnected mode.
    Ndm,
    /// Normal response mode.
    Nrm,
}

/// A slave's answer to an order.
#[derive(Clone, Debug, PartialEq, Eq)]
pub struct Answer {
    /// The response to send.
    pub response: Frame,
    /// Size of the held message that the order confirmed.
    pub confirmed: Option<usize>,
    /// Size of the message that the order handed over.
    pub handed_over: Option<usize>,
    /// What became of the link.
    pub link: Link,
}

impl Slave {
    /// A fresh slave. Refused by 8.
    pub fn make(address: u8) -> Result<Slave, Refusal> {
        surface::slave_make(address).map(|end| Slave { end })
    }

    /// Answers an order as it was read. Refused by 9, 10, 12, 19: then no response is to be sent.
    pub fn step(&mut self, address: u8, meaning: Meaning, information: &[u8]) -> Result<Answer, Refusal> {
        let ([address, control, _, confirmed, handed_over, link], response) = Information::written(2, |out| {
            surface::slave_step(&mut self.end, address, meaning.handed(), information, out)
        })?;
        Ok(Answer {
            response: Frame::given(address, control, response)?,
            confirmed: some(confirmed),
            handed_over: some(handed_over),
            link: Link::given(link),
        })
    }

    /// The mode.
    pub fn mode(&self) -> SlaveMode {
        match self.end[header::AT_MODE].into() {
            header::NDM => SlaveMode::Ndm,
            _ => SlaveMode::Nrm,
        }
    }
}

/// The master's end of a link.
///
/// ```
/// use bitbus::{Master, Meaning, Refusal};
/// let mut master = Master::make(5, 100)?;
/// assert_eq!(master.order(0)?.meaning, Meaning::Disc);
/// assert_eq!(master.order(1), Err(Refusal::ORDER_WAITS));
/// master.silence()?;
/// # Ok::<(), Refusal>(())
/// ```
#[derive(Clone, Debug, PartialEq, Eq)]
pub struct Master {
    end: surface::master::Bytes,
}

end!(Master, master, MASTER_SIZE);

/// A master's mode.
#[derive(Clone, Copy, Debug, PartialEq, Eq)]
pub enum MasterMode {
    /// Sends DISC.
    Disconnecting,
    /// Sends SNRM.
    Connecting,
    /// Exchanges messages.
    Linked,
}

/// What a response brought.
#[derive(Clone, Copy, Debug, PartialEq, Eq)]
pub enum Heard {
    /// It was late or from another address, and counts as silence.
    Silence,
    /// It was taken.
    Response {
        /// Size of the held message that it confirmed.
        confirmed: Option<usize>,
        /// Size of the message that it handed over.
        handed_over: Option<usize>,
        /// What became of the link.
        link: Link,
    },
}

impl Master {
    /// A fresh master, with its answer limit in ticks. Refused by 8, 15.
    pub fn make(address: u8, limit: u32) -> Result<Master, Refusal> {
        surface::master_make(address, limit).map(|end| Master { end })
    }

    /// Gives the next order and starts the wait for its response; `tick` is the time now. Refused by 17.
    pub fn order(&mut self, tick: u32) -> Result<Frame, Refusal> {
        let ([address, control, _], information) =
            Information::written(2, |out| surface::master_order(&mut self.end, tick, out))?;
        Frame::given(address, control, information)
    }

    /// Takes a response as it was read; `tick` is the time now. Refused by 16, 9, 10, 12: then the order still waits.
    pub fn response(&mut self, tick: u32, address: u8, meaning: Meaning, information: &[u8]) -> Result<Heard, Refusal> {
        let [silence, confirmed, handed_over, link] =
            surface::master_response(&mut self.end, tick, address, meaning.handed(), information)?;
        if silence != 0 {
            return Ok(Heard::Silence);
        }
        let (confirmed, handed_over, link) = (some(confirmed), some(handed_over), Link::given(link));
        Ok(Heard::Response { confirmed, handed_over, link })
    }

    /// No response came: ends the wait and changes nothing else. Refused by 16.
    pub fn silence(&mut self) -> Result<(), Refusal> {
        surface::master_silence(&mut self.end)
    }

    /// The mode.
    pub fn mode(&self) -> MasterMode {
        match self.end[header::AT_MODE].into() {
            header::DISCONNECTING => MasterMode::Disconnecting,
            header::CONNECTING => MasterMode::Connecting,
            _ => MasterMode::Linked,
        }
    }

    /// Whether the slave has said that it is not ready to receive.
    pub fn busy(&self) -> bool {
        self.end[header::AT_BUSY] != 0
    }

    /// Whether an order waits for its response.
    pub fn order_waits(&self) -> bool {
        self.end[header::AT_ORDER_WAITS] != 0
    }
}
