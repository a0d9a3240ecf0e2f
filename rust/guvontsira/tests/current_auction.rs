//! Request 7: a list of orders that come and go. After each change it is held to
//! request 6's call over the orders that should be held.

mod common;

use guvontsira::{AuctionAnswer, AuctionOrder, AuctionVolumes, CurrentAuction, Side};
use guvontsira::{MAX_AUCTION_ORDERS, MAX_PRICE, MAX_VOLUME, library, price};

use common::{at_auction, bad_orders, bare, book, given, limit, numbers};

/// An auction that is kept current, and beside it the orders that should be held.
#[derive(Default)]
struct Followed {
    current: CurrentAuction,
    orders: Vec<AuctionOrder>,
    afresh: AuctionVolumes,
    /// Of the last call that was not refused.
    volumes: Vec<u64>,
}

impl Followed {
    /// After `change`, if the call is not refused, the answer and the volumes are
    /// request 6's; a refusal leaves all as it was.
    fn holds(
        &mut self,
        answer: AuctionAnswer,
        reference: u32,
        change: impl FnOnce(&mut Vec<AuctionOrder>),
    ) -> AuctionAnswer {
        if !matches!(answer, AuctionAnswer::Refused(_)) {
            change(&mut self.orders);
            assert_eq!(self.afresh.price(&self.orders, reference), answer);
            self.volumes = self.afresh.volumes().to_vec();
        }
        assert!(self.current.orders().eq(self.orders.iter().copied()));
        assert_eq!(self.current.orders().len(), self.orders.len());
        assert_eq!(self.current.len(), self.orders.len());
        assert_eq!(self.current.is_empty(), self.orders.is_empty());
        assert_eq!(self.current.volumes(), self.volumes);
        answer
    }

    fn add(&mut self, order: AuctionOrder, reference: u32) -> AuctionAnswer {
        let answer = self.current.add(order, reference);
        self.holds(answer, reference, |orders| orders.push(order))
    }

    fn take(&mut self, place: usize, reference: u32) -> AuctionAnswer {
        let answer = self.current.take(place, reference);
        self.holds(answer, reference, |orders| {
            orders.remove(place);
        })
    }
}

/// Source document 002's book, built up from either end and taken down.
#[test]
fn a_book() {
    let (orders, _) = book(
        "buy ato x 1000\nbuy limit 103.00 x 1000\nbuy limit 103.00 x 1300\n\
         buy limit 102.00 x 500\nbuy limit 102.00 x 1100\nbuy limit 101.00 x 800\n\
         buy limit 101.00 x 300\nsell limit 102.00 x 2500\nsell limit 102.00 x 1000\n\
         sell limit 103.00 x 500\nsell limit 104.00 x 1000\nsell limit 105.00 x 1500\n\
         sell limit 106.00 x 500",
    );
    for backwards in [false, true] {
        let mut book = Followed::default();
        let mut last = AuctionAnswer::None;
        for place in 0..orders.len() {
            let place = if backwards {
                orders.len() - 1 - place
            } else {
                place
            };
            last = book.add(orders[place], 0);
        }
        assert_eq!(last, given(102_00, 3_500));
        for left in (0..orders.len()).rev() {
            let place = if backwards { 0 } else { left };
            last = book.take(place, 0);
        }
        assert_eq!(last, AuctionAnswer::None);
        assert!(book.current.is_empty());
    }
}

/// Adds and takes in any order, refused ones among them.
#[test]
fn any_changes() {
    let mut seed = 1_u32;
    let mut random = |below: u32| {
        seed = seed.wrapping_mul(1_664_525).wrapping_add(1_013_904_223);
        (seed >> 8) % below
    };
    let mut refused = [0; 2];
    let mut priced = 0;
    for _ in 0..50 {
        let mut book = Followed::default();
        for _ in 0..100 {
            let reference = price(1_000 + random(6)).unwrap() + random(2);
            let answer = if random(5) < 3 {
                let order = AuctionOrder {
                    side: Side::ALL[random(2) as usize],
                    price: (random(5) > 0).then(|| price(1_000 + random(6)).unwrap()),
                    volume: random(20),
                };
                book.add(order, reference)
            } else {
                let place = random(book.orders.len() as u32 + 2);
                book.take(place as usize, reference)
            };
            match answer {
                AuctionAnswer::Refused(number) => refused[usize::from(number - 15)] += 1,
                AuctionAnswer::Price { .. } => priced += 1,
                AuctionAnswer::None => {}
            }
        }
    }
    assert!(refused.iter().all(|count| *count > 50), "{refused:?}");
    assert!(priced > 1_000, "{priced}");
}

#[test]
fn each_call_has_its_reference() {
    let mut book = Followed::default();
    book.add(limit(Side::Buy, 2_00, 100), 0);
    book.add(limit(Side::Sell, 2_06, 100), 0);
    book.add(at_auction(Side::Buy, 100), 0);
    let sell = at_auction(Side::Sell, 100);
    for (reference, price) in [(2_02, 2_00), (2_03, 2_06), (0, 2_00), (u32::MAX, 2_06)] {
        assert_eq!(book.add(sell, reference), given(price, 100));
        // At 2.00 nobody sells now.
        assert_eq!(book.take(3, reference), given(2_06, 100));
        // And taken out of five.
        assert_eq!(book.add(sell, reference), given(price, 100));
        assert_eq!(book.add(sell, reference), given(2_00, 200));
        assert_eq!(book.take(4, reference), given(price, 100));
        assert_eq!(book.take(3, reference), given(2_06, 100));
    }
}

#[test]
fn a_bad_order() {
    let mut book = Followed::default();
    for held in 0..3 {
        for bad in bad_orders() {
            assert_eq!(book.add(bad, 0), AuctionAnswer::Refused(15), "{bad:?}");
        }
        assert_eq!(book.current.len(), held);
        book.add(limit(Side::ALL[held % 2], 50_00, 100), 0);
    }
    assert_eq!(book.current.volumes(), [100; 3]);
    book.add(limit(Side::Sell, MAX_PRICE, MAX_VOLUME), 0);
    assert_eq!(book.current.volumes(), [100, 100, 100, 0]);
}

#[test]
fn no_such_place() {
    let mut book = Followed::default();
    for held in 0..3 {
        for beyond in [held, held + 1, MAX_AUCTION_ORDERS, 1 << 32, usize::MAX] {
            assert_eq!(book.take(beyond, 0), AuctionAnswer::Refused(16), "{beyond}");
        }
        book.add(limit(Side::ALL[held % 2], 50_00, 100), 0);
    }
    assert_eq!(book.take(2, 0), given(50_00, 100));
    assert_eq!(book.take(2, 0), AuctionAnswer::Refused(16));
}

/// 14 is found before 15; the full list loses an order and takes one again.
#[test]
fn a_full_list() {
    let mut current = CurrentAuction::new();
    let good = at_auction(Side::Buy, MAX_VOLUME);
    for held in 1..=MAX_AUCTION_ORDERS {
        assert_eq!(current.add(good, 0), AuctionAnswer::None);
        assert_eq!(current.len(), held);
    }
    let mut book = Followed {
        current,
        orders: vec![good; MAX_AUCTION_ORDERS],
        volumes: vec![0; MAX_AUCTION_ORDERS],
        ..Followed::default()
    };
    for order in [good, limit(Side::Sell, 50_01, 100)] {
        assert_eq!(book.add(order, 0), AuctionAnswer::Refused(14));
    }
    assert_eq!(book.take(MAX_AUCTION_ORDERS, 0), AuctionAnswer::Refused(16));
    assert_eq!(book.take(7, 0), AuctionAnswer::None);
    let sell = limit(Side::Sell, 1, MAX_VOLUME);
    assert_eq!(book.add(sell, 0), given(1, MAX_VOLUME.into()));
    assert_eq!(book.add(sell, 0), AuctionAnswer::Refused(14));
    assert_eq!(book.take(MAX_AUCTION_ORDERS - 1, 0), AuctionAnswer::None);
}

/// What the bare calls are lent, and more: behind the lent parts stands what no call may
/// change.
#[derive(Clone, Debug, PartialEq)]
struct Lent {
    list: Vec<library::AuctionOrder>,
    count: usize,
    volumes: Vec<u64>,
}

/// How much of the list and of the scratch list is lent.
type Lengths = [usize; 2];

impl Lent {
    /// Past the count stand bad orders, which nobody asks.
    fn new(orders: &[library::AuctionOrder], count: usize) -> Lent {
        let mut list = vec![bare(7, 7, 0); 2_048];
        list[..orders.len()].copy_from_slice(orders);
        Lent {
            list,
            count,
            volumes: (1..=2_048).collect(),
        }
    }

    fn add(
        &mut self,
        lengths: Lengths,
        order: library::AuctionOrder,
        reference: u32,
    ) -> library::AuctionNumbers {
        let (list, volumes) = (
            &mut self.list[..lengths[0]],
            &mut self.volumes[..lengths[1]],
        );
        library::auction_add(list, &mut self.count, order, reference, volumes)
    }

    fn take(&mut self, lengths: Lengths, place: usize, reference: u32) -> library::AuctionNumbers {
        let (list, volumes) = (
            &mut self.list[..lengths[0]],
            &mut self.volumes[..lengths[1]],
        );
        library::auction_take(list, &mut self.count, place, reference, volumes)
    }

    /// These orders are held, the rest of what was lent is zero, and the volumes are
    /// request 6's.
    fn holds(
        &self,
        before: &Lent,
        lengths: Lengths,
        orders: &[library::AuctionOrder],
        reference: u32,
    ) -> library::AuctionNumbers {
        let mut after = before.clone();
        after.list[..lengths[0]].fill(bare(0, 0, 0));
        after.list[..orders.len()].copy_from_slice(orders);
        after.count = orders.len();
        let volumes = &mut after.volumes[..lengths[1]];
        let afresh = library::auction_volumes(orders, reference, volumes);
        assert_eq!(*self, after);
        afresh
    }
}

/// "places past the count are zero afterwards": to the end of the list, however long.
#[test]
fn lent_lists() {
    let orders = [
        bare(0, 2_00, 100),
        bare(1, 2_06, 100),
        bare(0, 0, 100),
        bare(1, 0, 100),
    ];
    for lengths in [
        [4, 1_024],
        [5, 2_000],
        [1_024, 1_024],
        [1_025, 1_025],
        [2_000, 1_024],
    ] {
        for (reference, price) in [(2_02, 2_00), (2_04, 2_06)] {
            let before = Lent::new(&orders[..3], 3);
            let mut lent = before.clone();
            let given = lent.add(lengths, orders[3], reference);
            assert_eq!(given, numbers(100, price, 0));
            assert_eq!(lent.holds(&before, lengths, &orders, reference), given);

            for place in 0..4 {
                let before = Lent::new(&orders, 4);
                let mut lent = before.clone();
                let given = lent.take(lengths, place, reference);
                let mut left = orders.to_vec();
                left.remove(place);
                assert_eq!(lent.holds(&before, lengths, &left, reference), given);
            }
        }
    }
}

/// Any list will do for an empty one, and an order may be the only one.
#[test]
fn the_first_and_the_last_order() {
    let order = bare(1, 50_00, 100);
    for lengths in [[1, 1_024], [2, 1_024], [2_048, 2_048]] {
        let before = Lent::new(&[], 0);
        let mut lent = before.clone();
        assert_eq!(lent.add(lengths, order, 0), numbers(0, 0, 0));
        lent.holds(&before, lengths, &[order], 0);
        assert_eq!(lent.take(lengths, 0, 0), numbers(0, 0, 0));
        lent.holds(&before, lengths, &[], 0);
    }
}

/// The lengths and the count, by what each call is refused with.
#[test]
fn lent_lists_refused() {
    let good = bare(0, 50_00, 100);
    let bad = bare(0, 50_01, 100);
    #[rustfmt::skip]
    let edges = [
        // list, scratch list, count; add, take
        ([0, 1_024], 0, 14, 16),
        ([0, 1_024], 1, 14, 14),
        ([1, 1_024], 0, 0, 16),
        ([1, 1_024], 1, 14, 0),
        ([1, 1_024], 2, 14, 14),
        ([1_023, 1_024], 1_023, 14, 0),
        ([1_024, 1_024], 1_023, 0, 0),
        ([1_024, 1_024], 1_024, 14, 0),
        ([1_024, 1_024], 1_025, 14, 14),
        ([2_000, 1_024], 1_023, 0, 0),
        ([2_000, 2_000], 1_024, 14, 0),
        ([2_000, 2_000], 1_025, 14, 14),
        ([2_000, 2_000], 2_000, 14, 14),
        ([2_000, 2_000], usize::MAX, 14, 14),
        ([1_024, 1_023], 0, 14, 14),
        ([1_024, 1_023], 3, 14, 14),
        ([2_000, 1_023], 3, 14, 14),
        ([1_024, 0], 3, 14, 14),
    ];
    for (lengths, count, add, take) in edges {
        let held = count.min(2_000);
        let edge = format!("{lengths:?} {count}");
        let given = |before: &Lent, call: &dyn Fn(&mut Lent) -> library::AuctionNumbers| {
            let mut lent = before.clone();
            let given = call(&mut lent);
            if given.refusal != 0 {
                assert_eq!(given, numbers(0, 0, given.refusal), "{edge}");
                assert_eq!(lent, *before, "{edge}");
            }
            given.refusal
        };
        let all_good = Lent::new(&vec![good; held], count);
        let adds = |order| move |lent: &mut Lent| lent.add(lengths, order, 0);
        let takes = |place| move |lent: &mut Lent| lent.take(lengths, place, 0);
        assert_eq!(given(&all_good, &adds(good)), add, "{edge}");
        assert_eq!(given(&all_good, &takes(0)), take, "{edge}");
        // 15 comes after 14, and 16 after both.
        let or = |refusal, later| if refusal == 0 { later } else { refusal };
        assert_eq!(given(&all_good, &adds(bad)), or(add, 15), "{edge}");
        assert_eq!(given(&all_good, &takes(count)), or(take, 16), "{edge}");
        for place in [0, held / 2, held.saturating_sub(1)] {
            if place >= held {
                continue;
            }
            let mut orders = vec![good; held];
            orders[place] = bad;
            let one_bad = Lent::new(&orders, count);
            assert_eq!(given(&one_bad, &adds(good)), or(add, 15), "{edge}");
            // Also where it is the one to be taken out.
            assert_eq!(given(&one_bad, &takes(place)), or(take, 15), "{edge}");
            assert_eq!(given(&one_bad, &takes(0)), or(take, 15), "{edge}");
            assert_eq!(given(&one_bad, &takes(count)), or(take, 15), "{edge}");
        }
    }
}

/// Each field of an order, the new one and one held.
#[test]
fn bad_orders_refused() {
    let good = bare(0, 50_00, 200);
    let bad = [
        bare(2, 50_00, 100),
        bare(u32::MAX, 0, 100),
        bare(1, 50_01, 100),
        bare(1, u32::MAX, 100),
        bare(1, 0, 0),
        bare(0, 50_00, MAX_VOLUME + 1),
        bare(0, 0, 0),
    ];
    let lengths = [2_000, 1_024];
    for bad in bad {
        let mut lent = Lent::new(&[good; 3], 3);
        let before = lent.clone();
        assert_eq!(lent.add(lengths, bad, 0), numbers(0, 0, 15));
        assert_eq!(lent, before);
        for place in 0..3 {
            let mut orders = [good; 3];
            orders[place] = bad;
            let mut lent = Lent::new(&orders, 3);
            let before = lent.clone();
            assert_eq!(lent.add(lengths, good, 0), numbers(0, 0, 15));
            for taken in [0, 1, 2, 3, usize::MAX] {
                assert_eq!(lent.take(lengths, taken, 0), numbers(0, 0, 15));
            }
            assert_eq!(lent, before);
        }
    }
}

#[test]
fn shown() {
    let mut auction = CurrentAuction::new();
    let shown = "CurrentAuction { orders: [], volumes: [] }";
    assert_eq!(format!("{auction:?}"), shown);
    auction.add(at_auction(Side::Sell, 100), 0);
    let shown = "CurrentAuction { orders: [AuctionOrder { side: Sell, price: None, volume: 100 }], volumes: [0] }";
    assert_eq!(format!("{auction:?}"), shown);
}
