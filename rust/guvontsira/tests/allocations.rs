//! What the wrapper allocates, by a counting allocator. One test, since others
//! would be counted with it.

use std::alloc::{GlobalAlloc, Layout, System};
use std::hint::black_box;
use std::sync::atomic::{AtomicUsize, Ordering};

use guvontsira::{
    Answer, Auction, AuctionAnswer, AuctionOrder, AuctionVolumes, Board, Channel, CurrentAuction,
    Event, MAX_AUCTION_ORDERS, OrderType, Session, Side, State, Time,
};

struct Counting;

static ALLOCATIONS: AtomicUsize = AtomicUsize::new(0);

// SAFETY: the system's allocator does all the work.
unsafe impl GlobalAlloc for Counting {
    unsafe fn alloc(&self, layout: Layout) -> *mut u8 {
        ALLOCATIONS.fetch_add(1, Ordering::SeqCst);
        // SAFETY: what the caller owes is owed on.
        unsafe { System.alloc(layout) }
    }

    unsafe fn dealloc(&self, place: *mut u8, layout: Layout) {
        // SAFETY: what the caller owes is owed on.
        unsafe { System.dealloc(place, layout) }
    }
}

#[global_allocator]
static COUNTING: Counting = Counting;

/// How many allocations the work makes. Threads of the test runner may add
/// theirs, so the least of several times counts.
fn least(mut work: impl FnMut()) -> usize {
    let one = |_| {
        let before = ALLOCATIONS.load(Ordering::SeqCst);
        work();
        ALLOCATIONS.load(Ordering::SeqCst) - before
    };
    (0..10).map(one).min().expect("it was tried")
}

#[test]
fn none_for_an_event_or_an_auction() {
    let mut state = State::new(8, 16).unwrap();
    let order = Event::Order {
        customer: 0,
        number: 1,
        security: 0,
        board: Board::Main,
        side: Side::Buy,
        order_type: OrderType::Limit,
        channel: Channel::Online,
        price: 50_00,
        volume: 100,
    };
    let market_price = Event::Order {
        customer: 0,
        number: 2,
        security: 0,
        board: Board::Main,
        side: Side::Buy,
        order_type: OrderType::Mp,
        channel: Channel::Online,
        price: 0,
        volume: 100,
    };
    let day = [
        Event::Clock { time: 1 },
        Event::Session {
            session: Session::Open,
        },
        Event::Setup {
            security: 0,
            lot: 50,
            free: false,
            first_day: false,
            prior_close: 50_00,
            ipo: 0,
        },
        Event::Figures {
            security: 0,
            dividend: 1_00,
            subscription: 50_00,
            old_shares: 2,
            new_shares: 3,
        },
        Event::Prices {
            security: 0,
            board: Board::Main,
            projected: 0,
            last: 50_00,
            bid: 49_75,
            offer: 50_25,
        },
        order,
        Event::Match {
            customer: 0,
            number: 1,
            volume: 50,
        },
        Event::Match {
            customer: 0,
            number: 1,
            volume: 50,
        },
        Event::Cancel {
            customer: 0,
            number: 1,
        },
        market_price,
        Event::Rest {
            customer: 0,
            number: 2,
            price: 50_50,
        },
        Event::Match {
            customer: 0,
            number: 2,
            volume: 100,
        },
    ];
    let expected = [
        Answer::Ok,
        Answer::Ok,
        Answer::Ok,
        Answer::Ok,
        Answer::Ok,
        Answer::Accept,
        Answer::Ok,
        Answer::Ok,
        Answer::Refused(10),
        Answer::Accept,
        Answer::Ok,
        Answer::Ok,
    ];
    let sent = least(|| {
        for (event, answer) in day.iter().zip(expected) {
            assert!(state.send(event) == answer);
        }
        assert!(state.security(0).is_some() && state.clock() == Some(Time { milliseconds: 1 }));
        assert!(state.range(0).is_some());
    });
    assert_eq!(sent, 0);
    auctions();
    // That the allocator counts.
    assert!(least(|| drop(black_box(order.bytes()))) > 0);
}

/// Also for a list that is longer than any the library takes.
fn auctions() {
    let order = AuctionOrder {
        side: Side::Buy,
        price: Some(50_00),
        volume: 100,
    };
    let orders = [order; MAX_AUCTION_ORDERS + 2];
    let mut auction = Auction::new();
    let mut volumes = AuctionVolumes::new();
    let mut current = CurrentAuction::new();
    let asked = least(|| {
        let (longest, longer) = (&orders[..MAX_AUCTION_ORDERS], &orders);
        assert!(auction.price(longest, 0) == AuctionAnswer::None);
        assert!(auction.buyers()[0] == 102_400 && auction.sellers()[0] == 0);
        assert!(auction.price(longer, 0) == AuctionAnswer::Refused(14));
        assert!(volumes.price(longest, 0) == AuctionAnswer::None);
        assert!(volumes.volumes()[0] == 0);
        assert!(volumes.price(longer, 0) == AuctionAnswer::Refused(14));
        assert!(current.add(order, 0) == AuctionAnswer::None);
        assert!(current.orders().eq([order]) && current.volumes()[0] == 0);
        assert!(current.take(1, 0) == AuctionAnswer::Refused(16));
        assert!(current.take(0, 0) == AuctionAnswer::None);
    });
    assert_eq!(asked, 0);
}
