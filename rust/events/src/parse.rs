//! A line to its bytes.

use second::encode;
use second::event::{Event, Figures, Order, Prices, Setup};

use crate::expected::{AnyOf, expected};
use crate::line_words::LineWords;
use crate::values::byte;
use crate::words::{BOARDS, CHANNELS, LIMIT, SESSIONS, SIDES, TYPES};

type Reader = fn(&mut LineWords) -> Result<Vec<u8>, String>;

/// The first word of a line, and how the rest is read.
const KINDS: [(&str, Reader); 10] = [
    ("clock", |words| clock(words).map(bytes_of)),
    ("session", |words| session(words).map(bytes_of)),
    ("setup", |words| setup(words).map(bytes_of)),
    ("prices", |words| prices(words).map(bytes_of)),
    ("order", |words| order(words).map(bytes_of)),
    ("cancel", |words| cancel(words).map(bytes_of)),
    ("match", |words| match_report(words).map(bytes_of)),
    ("rest", |words| rest(words).map(bytes_of)),
    ("figures", |words| figures(words).map(bytes_of)),
    ("bytes", bytes),
];

/// The bytes of one line; `None` for a line with nothing but a comment. The
/// error says what is wrong with the line.
pub fn parse(line: &str) -> Result<Option<Vec<u8>>, String> {
    let mut words = LineWords::of(line);
    let Some(first) = words.next() else {
        return Ok(None);
    };
    let Some((_, read)) = KINDS.iter().find(|(kind, _)| *kind == first) else {
        return Err(expected(first, AnyOf(&KINDS.map(|(kind, _)| kind))));
    };
    let bytes = read(&mut words)?;
    words.end()?;
    Ok(Some(bytes))
}

fn bytes_of(event: Event) -> Vec<u8> {
    encode::event(&event)
}

fn clock(words: &mut LineWords) -> Result<Event, String> {
    Ok(Event::Clock {
        time: words.time()?,
    })
}

fn session(words: &mut LineWords) -> Result<Event, String> {
    Ok(Event::Session {
        session: words.code_or_number(&SESSIONS)?,
    })
}

fn setup(words: &mut LineWords) -> Result<Event, String> {
    let security = words.u16("a security")?;
    words.keyword("lot")?;
    let lot = words.u8("a lot")?;
    let [free, first_day, prior_close, ipo] = fields(
        words,
        ["free", "first-day", "close", "ipo"],
        |word, words| match word {
            "free" | "first-day" => words.flag(),
            _ => words.price(),
        },
    )?;
    Ok(Event::Setup(Setup {
        security,
        lot,
        free: free as u8,
        first_day: first_day as u8,
        prior_close,
        ipo,
    }))
}

fn prices(words: &mut LineWords) -> Result<Event, String> {
    let security = words.u16("a security")?;
    let board = words.code(&BOARDS)?;
    let [projected, last, bid, offer] =
        fields(words, ["projected", "last", "bid", "offer"], |_, words| {
            words.price()
        })?;
    Ok(Event::Prices(Prices {
        security,
        board,
        projected,
        last,
        bid,
        offer,
    }))
}

fn order(words: &mut LineWords) -> Result<Event, String> {
    let (customer, number) = customer_and_number(words)?;
    words.keyword("security")?;
    let security = words.u16("a security")?;
    let board = words.code(&BOARDS)?;
    let side = words.code(&SIDES)?;
    let order_type = words.code(&TYPES)?;
    let price = match order_type {
        LIMIT => words.price()?,
        _ => words.price_if_any(),
    };
    let volume = words.volume()?;
    let channel = words.code(&CHANNELS)?;
    Ok(Event::Order(Order {
        customer,
        number,
        security,
        board,
        side,
        order_type,
        channel,
        price,
        volume,
    }))
}

fn cancel(words: &mut LineWords) -> Result<Event, String> {
    let (customer, number) = customer_and_number(words)?;
    Ok(Event::Cancel { customer, number })
}

fn match_report(words: &mut LineWords) -> Result<Event, String> {
    let (customer, number) = customer_and_number(words)?;
    Ok(Event::Match {
        customer,
        number,
        volume: words.volume()?,
    })
}

fn rest(words: &mut LineWords) -> Result<Event, String> {
    let (customer, number) = customer_and_number(words)?;
    words.keyword("at")?;
    Ok(Event::Rest {
        customer,
        number,
        price: words.price()?,
    })
}

fn figures(words: &mut LineWords) -> Result<Event, String> {
    let security = words.u16("a security")?;
    let old = shares(words, "old")?;
    let new = shares(words, "new")?;
    let [dividend, subscription] = fields(words, ["dividend", "subscription"], |_, words| {
        words.price()
    })?;
    Ok(Event::Figures(Figures {
        security,
        dividend,
        subscription,
        old,
        new,
    }))
}

fn bytes(words: &mut LineWords) -> Result<Vec<u8>, String> {
    let each = std::iter::from_fn(|| words.next());
    each.map(|word| byte(word).ok_or_else(|| expected(word, "a byte, as 0f")))
        .collect()
}

fn customer_and_number(words: &mut LineWords) -> Result<(u16, u32), String> {
    let customer = words.u16("a customer")?;
    words.keyword("no")?;
    let number = words.number("an order number", u32::MAX)?;
    Ok((customer, number))
}

fn shares(words: &mut LineWords, keyword: &str) -> Result<u16, String> {
    words.keyword(keyword)?;
    words.u16("shares")
}

/// Fields by their names, in any order and each at most once, to the end of the
/// line. One left out is 0.
fn fields<const N: usize>(
    words: &mut LineWords,
    names: [&str; N],
    value: fn(&str, &mut LineWords) -> Result<u32, String>,
) -> Result<[u32; N], String> {
    let mut found = [None; N];
    while let Some(word) = words.next() {
        let Some(place) = names.iter().position(|name| *name == word) else {
            return Err(expected(word, AnyOf(&names)));
        };
        if found[place].replace(value(word, words)?).is_some() {
            return Err(format!("{word:?} stands twice"));
        }
    }
    Ok(found.map(Option::unwrap_or_default))
}
