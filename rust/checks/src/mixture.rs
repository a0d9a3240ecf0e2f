//! What a random history has much of, so that full desks, repeated cancels and
//! auctions all come about often.

use second::codes::Session::{self, Break, Closed, Open, PreClose, PreOpen};

#[derive(Clone, Copy, Debug)]
pub enum Kind {
    Clock,
    Session,
    Setup,
    Prices,
    Figures,
    Order,
    /// An order like one cancelled before.
    Repeat,
    Cancel,
    Match,
    /// What is left of an MP order becomes a limit.
    Rest,
    /// Any of these with something wrong in its bytes.
    Malformed,
}

pub struct Mixture {
    pub name: &'static str,
    /// How often each comes, against the others.
    pub kinds: &'static [(Kind, u32)],
    pub sessions: &'static [Session],
    /// Channels of orders, by their codes.
    pub channels: &'static [u8],
}

pub const MIXTURES: [Mixture; 6] = [
    Mixture {
        name: "whole day",
        kinds: &[
            (Kind::Clock, 6),
            (Kind::Session, 2),
            (Kind::Setup, 2),
            (Kind::Prices, 8),
            (Kind::Figures, 4),
            (Kind::Order, 50),
            (Kind::Repeat, 8),
            (Kind::Cancel, 14),
            (Kind::Match, 8),
            (Kind::Rest, 6),
            (Kind::Malformed, 3),
        ],
        sessions: &[PreOpen, Open, Open, Break, PreClose, Closed],
        channels: &[0, 1, 1, 2],
    },
    Mixture {
        name: "repeated cancels",
        kinds: &[
            (Kind::Clock, 12),
            (Kind::Prices, 2),
            (Kind::Figures, 3),
            (Kind::Order, 22),
            (Kind::Repeat, 30),
            (Kind::Cancel, 28),
            (Kind::Match, 5),
            (Kind::Rest, 8),
            (Kind::Malformed, 1),
        ],
        sessions: &[Open],
        channels: &[1, 1, 1, 0],
    },
    Mixture {
        name: "auctions",
        kinds: &[
            (Kind::Clock, 4),
            (Kind::Session, 2),
            (Kind::Setup, 4),
            (Kind::Prices, 16),
            (Kind::Figures, 5),
            (Kind::Order, 52),
            (Kind::Cancel, 14),
            (Kind::Match, 6),
            (Kind::Rest, 1),
            (Kind::Malformed, 2),
        ],
        sessions: &[PreOpen, PreClose],
        channels: &[0, 1, 1, 2],
    },
    Mixture {
        name: "full desks",
        kinds: &[
            (Kind::Clock, 3),
            (Kind::Prices, 3),
            (Kind::Figures, 3),
            (Kind::Order, 80),
            (Kind::Repeat, 3),
            (Kind::Cancel, 6),
            (Kind::Match, 3),
            (Kind::Rest, 3),
            (Kind::Malformed, 1),
        ],
        sessions: &[Open, PreOpen],
        channels: &[0, 0, 1, 2],
    },
    Mixture {
        name: "moving market",
        kinds: &[
            (Kind::Clock, 5),
            (Kind::Session, 5),
            (Kind::Setup, 15),
            (Kind::Prices, 30),
            (Kind::Figures, 12),
            (Kind::Order, 35),
            (Kind::Cancel, 6),
            (Kind::Match, 3),
            (Kind::Rest, 4),
            (Kind::Malformed, 2),
        ],
        sessions: &[PreOpen, Open, PreClose],
        channels: &[0, 1, 2],
    },
    Mixture {
        name: "malformed events",
        kinds: &[
            (Kind::Clock, 5),
            (Kind::Session, 2),
            (Kind::Setup, 3),
            (Kind::Prices, 5),
            (Kind::Figures, 5),
            (Kind::Order, 30),
            (Kind::Repeat, 5),
            (Kind::Cancel, 10),
            (Kind::Match, 10),
            (Kind::Rest, 10),
            (Kind::Malformed, 30),
        ],
        sessions: &[PreOpen, Open, Break, PreClose, Closed],
        channels: &[0, 1, 2],
    },
];

/// Between the sessions of a history over every desk, which come apart from it.
pub const EVERY_DESK: Mixture = Mixture {
    name: "every desk",
    kinds: &[
        (Kind::Clock, 5),
        (Kind::Setup, 4),
        (Kind::Prices, 10),
        (Kind::Figures, 5),
        (Kind::Order, 45),
        (Kind::Repeat, 8),
        (Kind::Cancel, 16),
        (Kind::Match, 10),
        (Kind::Rest, 6),
        (Kind::Malformed, 2),
    ],
    sessions: &[],
    channels: &[0, 1, 1, 2],
};
