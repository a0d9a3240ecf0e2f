//! Bytes to one event: read whole, or refused before any rule looks at it.

use crate::answer::Refusal;

/// The fields of an event as sent; nothing beyond kind and length is checked.
#[derive(Clone, Copy, Debug, PartialEq, Eq)]
pub enum Event {
    Clock {
        time: u32,
    },
    Session {
        session: u8,
    },
    Setup(Setup),
    Prices(Prices),
    Order(Order),
    Cancel {
        customer: u16,
        number: u32,
    },
    Match {
        customer: u16,
        number: u32,
        volume: u32,
    },
    /// What is left of an MP order stays in the book as a limit at this price.
    Rest {
        customer: u16,
        number: u32,
        price: u32,
    },
    Figures(Figures),
}

#[derive(Clone, Copy, Debug, PartialEq, Eq)]
pub struct Setup {
    pub security: u16,
    pub lot: u8,
    pub free: u8,
    pub first_day: u8,
    pub prior_close: u32,
    pub ipo: u32,
}

#[derive(Clone, Copy, Debug, PartialEq, Eq)]
pub struct Prices {
    pub security: u16,
    pub board: u8,
    pub projected: u32,
    pub last: u32,
    pub bid: u32,
    pub offer: u32,
}

#[derive(Clone, Copy, Debug, PartialEq, Eq)]
pub struct Order {
    pub customer: u16,
    pub number: u32,
    pub security: u16,
    pub board: u8,
    pub side: u8,
    pub order_type: u8,
    pub channel: u8,
    pub price: u32,
    pub volume: u32,
}

/// What a right that has gone changes of the prior close (paper 02, request 3).
#[derive(Clone, Copy, Debug, PartialEq, Eq)]
pub struct Figures {
    pub security: u16,
    pub dividend: u32,
    pub subscription: u32,
    pub old: u16,
    pub new: u16,
}

/// How many bytes an event of this kind takes, the kind byte included.
/// `None` if the kind is not 1 to 9.
pub fn length(kind: u8) -> Option<usize> {
    match kind {
        1 => Some(5),
        2 => Some(2),
        3 => Some(14),
        4 => Some(20),
        5 => Some(21),
        6 => Some(7),
        7 | 8 => Some(11),
        9 => Some(15),
        _ => None,
    }
}

/// Reads exactly one event. An unknown kind is found before a wrong length.
pub fn decode(bytes: &[u8]) -> Result<Event, Refusal> {
    let (&kind, body) = bytes.split_first().ok_or(Refusal::Length)?;
    let length = length(kind).ok_or(Refusal::Kind)?;
    if bytes.len() != length {
        return Err(Refusal::Length);
    }
    decode_body(kind, Fields(body)).ok_or(Refusal::Length)
}

fn decode_body(kind: u8, mut fields: Fields) -> Option<Event> {
    Some(match kind {
        1 => Event::Clock {
            time: fields.u32()?,
        },
        2 => Event::Session {
            session: fields.u8()?,
        },
        3 => Event::Setup(Setup {
            security: fields.u16()?,
            lot: fields.u8()?,
            free: fields.u8()?,
            first_day: fields.u8()?,
            prior_close: fields.u32()?,
            ipo: fields.u32()?,
        }),
        4 => Event::Prices(Prices {
            security: fields.u16()?,
            board: fields.u8()?,
            projected: fields.u32()?,
            last: fields.u32()?,
            bid: fields.u32()?,
            offer: fields.u32()?,
        }),
        5 => Event::Order(Order {
            customer: fields.u16()?,
            number: fields.u32()?,
            security: fields.u16()?,
            board: fields.u8()?,
            side: fields.u8()?,
            order_type: fields.u8()?,
            channel: fields.u8()?,
            price: fields.u32()?,
            volume: fields.u32()?,
        }),
        6 => Event::Cancel {
            customer: fields.u16()?,
            number: fields.u32()?,
        },
        7 => Event::Match {
            customer: fields.u16()?,
            number: fields.u32()?,
            volume: fields.u32()?,
        },
        8 => Event::Rest {
            customer: fields.u16()?,
            number: fields.u32()?,
            price: fields.u32()?,
        },
        9 => Event::Figures(Figures {
            security: fields.u16()?,
            dividend: fields.u32()?,
            subscription: fields.u32()?,
            old: fields.u16()?,
            new: fields.u16()?,
        }),
        _ => return None,
    })
}

/// Takes little-endian fields off the front of a body.
struct Fields<'a>(&'a [u8]);

impl Fields<'_> {
    fn take<const N: usize>(&mut self) -> Option<[u8; N]> {
        let (field, rest) = self.0.split_first_chunk()?;
        self.0 = rest;
        Some(*field)
    }

    fn u8(&mut self) -> Option<u8> {
        self.take().map(u8::from_le_bytes)
    }

    fn u16(&mut self) -> Option<u16> {
        self.take().map(u16::from_le_bytes)
    }

    fn u32(&mut self) -> Option<u32> {
        self.take().map(u32::from_le_bytes)
    }
}

#[cfg(test)]
mod tests {
    use super::*;

    #[test]
    fn every_kind_at_every_length() {
        for kind in 0..=255 {
            for size in 1..=40 {
                let mut bytes = vec![0; size];
                bytes[0] = kind;
                let read = decode(&bytes);
                match length(kind) {
                    None => assert_eq!(read, Err(Refusal::Kind)),
                    Some(length) if length != size => assert_eq!(read, Err(Refusal::Length)),
                    Some(_) => assert!(read.is_ok()),
                }
            }
        }
        assert_eq!(decode(&[]), Err(Refusal::Length));
    }

    #[test]
    fn fields_are_little_endian_and_in_order() {
        let bytes: Vec<u8> = (5..26).collect();
        assert_eq!(
            decode(&bytes),
            Ok(Event::Order(Order {
                customer: 0x0706,
                number: 0x0b0a_0908,
                security: 0x0d0c,
                board: 0x0e,
                side: 0x0f,
                order_type: 0x10,
                channel: 0x11,
                price: 0x1514_1312,
                volume: 0x1918_1716,
            }))
        );
        let bytes: Vec<u8> = (3..17).collect();
        assert_eq!(
            decode(&bytes),
            Ok(Event::Setup(Setup {
                security: 0x0504,
                lot: 6,
                free: 7,
                first_day: 8,
                prior_close: 0x0c0b_0a09,
                ipo: 0x100f_0e0d,
            }))
        );
        let bytes: Vec<u8> = (4..24).collect();
        assert_eq!(
            decode(&bytes),
            Ok(Event::Prices(Prices {
                security: 0x0605,
                board: 7,
                projected: 0x0b0a_0908,
                last: 0x0f0e_0d0c,
                bid: 0x1312_1110,
                offer: 0x1716_1514,
            }))
        );
        let bytes: Vec<u8> = (7..18).collect();
        assert_eq!(
            decode(&bytes),
            Ok(Event::Match {
                customer: 0x0908,
                number: 0x0d0c_0b0a,
                volume: 0x1110_0f0e,
            })
        );
        let bytes: Vec<u8> = (8..19).collect();
        assert_eq!(
            decode(&bytes),
            Ok(Event::Rest {
                customer: 0x0a09,
                number: 0x0e0d_0c0b,
                price: 0x1211_100f,
            })
        );
        let bytes: Vec<u8> = (9..24).collect();
        assert_eq!(
            decode(&bytes),
            Ok(Event::Figures(Figures {
                security: 0x0b0a,
                dividend: 0x0f0e_0d0c,
                subscription: 0x1312_1110,
                old: 0x1514,
                new: 0x1716,
            }))
        );
    }
}
