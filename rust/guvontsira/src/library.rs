//! The library's fifteen functions over slices, with its bare numbers. All unsafe
//! code of the crate is here.
//!
//! Every function is total: any words and any bytes may be handed in, and a
//! refusal changes no word. What a C caller owes beside that, the types of a
//! slice already say: it is valid for its length, and while it is borrowed
//! here nobody else writes it and no other slice overlaps it.

/// An order of an auction's list, with its bare numbers: side 0 buy, 1 sell;
/// price in satang, 0 for ATO or ATC; volume in shares.
#[repr(C)]
#[derive(Clone, Copy, Debug, PartialEq, Eq)]
pub struct AuctionOrder {
    pub side: u32,
    pub price: u32,
    pub volume: u32,
}

/// The answer of an auction's call: a price above 0 with its volume, or both 0 for
/// none; or the number of a refusal, and then both are 0.
#[repr(C)]
#[derive(Clone, Copy, Debug, PartialEq, Eq)]
pub struct AuctionNumbers {
    pub volume: u64,
    pub price: u32,
    pub refusal: u32,
}

// Nothing checks these lines against the library's source; include/guvontsira.h
// says the same in C.
unsafe extern "C" {
    fn guvontsira_make(words: *mut u32, word_count: usize, customers: u32, securities: u32) -> u32;

    fn guvontsira_handle(
        words: *mut u32,
        word_count: usize,
        event: *const u8,
        event_length: usize,
    ) -> u32;

    fn guvontsira_run(
        words: *mut u32,
        word_count: usize,
        events: *const u8,
        events_length: usize,
        answers: *mut u32,
        answers_length: usize,
    ) -> usize;

    fn guvontsira_run_list(
        words: *mut u32,
        word_count: usize,
        events: *const u8,
        events_length: usize,
        lengths: *const usize,
        lengths_length: usize,
        answers: *mut u32,
        answers_length: usize,
    ) -> usize;

    fn guvontsira_floor(words: *const u32, word_count: usize, security: u32) -> u32;

    fn guvontsira_ceiling(words: *const u32, word_count: usize, security: u32) -> u32;

    fn guvontsira_auction(
        orders: *const AuctionOrder,
        order_count: usize,
        reference: u32,
        buyers: *mut u64,
        buyers_length: usize,
        sellers: *mut u64,
        sellers_length: usize,
    ) -> AuctionNumbers;

    fn guvontsira_auction_volumes(
        orders: *const AuctionOrder,
        order_count: usize,
        reference: u32,
        volumes: *mut u64,
        volumes_length: usize,
    ) -> AuctionNumbers;

    fn guvontsira_auction_add(
        orders: *mut AuctionOrder,
        orders_length: usize,
        count: *mut usize,
        order: AuctionOrder,
        reference: u32,
        volumes: *mut u64,
        volumes_length: usize,
    ) -> AuctionNumbers;

    fn guvontsira_auction_take(
        orders: *mut AuctionOrder,
        orders_length: usize,
        count: *mut usize,
        place: usize,
        reference: u32,
        volumes: *mut u64,
        volumes_length: usize,
    ) -> AuctionNumbers;

    safe fn guvontsira_position(price: u32) -> u32;

    safe fn guvontsira_lower_position(price: u32) -> u32;

    safe fn guvontsira_upper_position(price: u32) -> u32;

    safe fn guvontsira_price(position: u32) -> u32;

    safe fn guvontsira_version() -> u32;
}

/// Makes a fresh state in the lent words. The answer is ok or refused 1.
pub fn make(words: &mut [u32], customers: u32, securities: u32) -> u32 {
    // SAFETY: pointer and length are those of one slice borrowed for writing.
    unsafe { guvontsira_make(words.as_mut_ptr(), words.len(), customers, securities) }
}

/// Handles one event.
pub fn handle(words: &mut [u32], event: &[u8]) -> u32 {
    // SAFETY: pointers and lengths are those of two borrowed slices; the one
    // that is written overlaps nothing.
    unsafe { guvontsira_handle(words.as_mut_ptr(), words.len(), event.as_ptr(), event.len()) }
}

/// Handles events that stand one after another, as many as there are places
/// for answers, and gives back how many those were. Later places keep what
/// they hold.
pub fn run(words: &mut [u32], events: &[u8], answers: &mut [u32]) -> usize {
    // SAFETY: pointers and lengths are those of three borrowed slices; the two
    // that are written overlap nothing.
    unsafe {
        guvontsira_run(
            words.as_mut_ptr(),
            words.len(),
            events.as_ptr(),
            events.len(),
            answers.as_mut_ptr(),
            answers.len(),
        )
    }
}

/// Handles events by their lengths, as many as there are lengths and places for
/// answers, and gives back how many those were. A length beyond the bytes takes
/// what is left of them. Later places keep what they hold.
pub fn run_list(words: &mut [u32], events: &[u8], lengths: &[usize], answers: &mut [u32]) -> usize {
    // SAFETY: pointers and lengths are those of four borrowed slices; the two
    // that are written overlap nothing.
    unsafe {
        guvontsira_run_list(
            words.as_mut_ptr(),
            words.len(),
            events.as_ptr(),
            events.len(),
            lengths.as_ptr(),
            lengths.len(),
            answers.as_mut_ptr(),
            answers.len(),
        )
    }
}

/// The day's floor in satang of a security on the main board; 0 where it has no
/// range: it is free or has no prior close, its number is not below the count of
/// securities, its record is damaged, or the state does not fit. No desk is
/// looked at.
pub fn floor(words: &[u32], security: u32) -> u32 {
    // SAFETY: pointer and length are those of one borrowed slice.
    unsafe { guvontsira_floor(words.as_ptr(), words.len(), security) }
}

/// The day's ceiling in satang of a security on the main board; 0 where it has
/// no range, as with [`floor`].
pub fn ceiling(words: &[u32], security: u32) -> u32 {
    // SAFETY: pointer and length are those of one borrowed slice.
    unsafe { guvontsira_ceiling(words.as_ptr(), words.len(), security) }
}

/// The price that an auction of these orders would give, with its volume. The
/// scratch lists have at least 1,024 places each. After a call that is not
/// refused they hold, at each limit's place in the list of orders, the buyers'
/// and the sellers' sum at its price, 0 at the place of an ATO or ATC, and
/// behind the last order what they held; a refusal changes neither.
pub fn auction(
    orders: &[AuctionOrder],
    reference: u32,
    buyers: &mut [u64],
    sellers: &mut [u64],
) -> AuctionNumbers {
    // SAFETY: pointers and lengths are those of three borrowed slices; the two
    // that are written overlap nothing. The structs have C's layout.
    unsafe {
        guvontsira_auction(
            orders.as_ptr(),
            orders.len(),
            reference,
            buyers.as_mut_ptr(),
            buyers.len(),
            sellers.as_mut_ptr(),
            sellers.len(),
        )
    }
}

/// The answer of [`auction`], with one scratch list of at least 1,024 places. After a
/// call that is not refused it holds, at each limit's place in the list of orders, the
/// volume at its price, and 0 everywhere else, to its end; a refusal leaves it.
pub fn auction_volumes(
    orders: &[AuctionOrder],
    reference: u32,
    volumes: &mut [u64],
) -> AuctionNumbers {
    // SAFETY: pointers and lengths are those of two borrowed slices; the one that
    // is written overlaps nothing. The structs have C's layout.
    unsafe {
        guvontsira_auction_volumes(
            orders.as_ptr(),
            orders.len(),
            reference,
            volumes.as_mut_ptr(),
            volumes.len(),
        )
    }
}

/// Adds an order at the end of the list, whose first `count` places are held; what
/// stands past them is never asked. After a call that is not refused the count is one
/// more, every place of the list past it is zero, to its end, and the answer and the
/// volumes are those of [`auction_volumes`] for the orders held. Refused with 14 if the
/// count is the list's length or 1,024, or above one of these, or the scratch list has
/// fewer than 1,024 places; then with 15 if the order, or one held, is bad. A refusal
/// leaves the list, the count and the volumes.
pub fn auction_add(
    orders: &mut [AuctionOrder],
    count: &mut usize,
    order: AuctionOrder,
    reference: u32,
    volumes: &mut [u64],
) -> AuctionNumbers {
    // SAFETY: pointers and lengths are those of two borrowed slices and of a number;
    // all three are written, and they overlap nothing. The structs have C's layout.
    unsafe {
        guvontsira_auction_add(
            orders.as_mut_ptr(),
            orders.len(),
            count,
            order,
            reference,
            volumes.as_mut_ptr(),
            volumes.len(),
        )
    }
}

/// Takes out the order at the place, counted from 0, and closes the gap; the count is
/// one less afterwards, and all else as with [`auction_add`]. Refused with 14 if the
/// count is above the list's length or above 1,024, or the scratch list has fewer than
/// 1,024 places; then with 15 if an order held is bad, also the one at the place; then
/// with 16 if the place is at or beyond the count.
pub fn auction_take(
    orders: &mut [AuctionOrder],
    count: &mut usize,
    place: usize,
    reference: u32,
    volumes: &mut [u64],
) -> AuctionNumbers {
    // SAFETY: as in `auction_add`.
    unsafe {
        guvontsira_auction_take(
            orders.as_mut_ptr(),
            orders.len(),
            count,
            place,
            reference,
            volumes.as_mut_ptr(),
            volumes.len(),
        )
    }
}

/// The ladder position of a price in satang; 0 if it is off the ladder.
pub fn position(price: u32) -> u32 {
    guvontsira_position(price)
}

/// The nearest ladder position at or below a price in satang; 0 if it is not 1
/// to 10,000,000.
pub fn lower_position(price: u32) -> u32 {
    guvontsira_lower_position(price)
}

/// The nearest ladder position at or above a price in satang; 0 if it is not 1
/// to 10,000,000.
pub fn upper_position(price: u32) -> u32 {
    guvontsira_upper_position(price)
}

/// The price in satang at a ladder position; 0 if there is no such position.
pub fn price(position: u32) -> u32 {
    guvontsira_price(position)
}

/// The release of the linked library: 10,000 times its major number, 100 times
/// its minor one, and its patch.
pub fn version() -> u32 {
    guvontsira_version()
}
