//! The auction: what requests 5 and 6 and the documents say of it, through the types,
//! and what becomes of lent lists.

mod common;

use guvontsira::{Auction, AuctionAnswer, AuctionOrder, AuctionVolumes, MAX_AUCTION_ORDERS, Side};
use guvontsira::{MAX_POSITION, MAX_PRICE, MAX_VOLUME, library, price};

use common::{at_auction, bad_orders, bare, book, given, limit, numbers};

/// With two scratch lists and with one.
#[derive(Default)]
struct Both {
    sums: Auction,
    volumes: AuctionVolumes,
}

impl Both {
    /// Request 6: the answers "must be the ones given before". The volume at a price is
    /// the smaller sum.
    fn price(&mut self, orders: &[AuctionOrder], reference: u32) -> AuctionAnswer {
        let answer = self.sums.price(orders, reference);
        assert_eq!(self.volumes.price(orders, reference), answer);
        let sums = self.sums.buyers().iter().zip(self.sums.sellers());
        let smaller: Vec<u64> = sums.map(|(buyers, sellers)| *buyers.min(sellers)).collect();
        assert_eq!(self.volumes.volumes(), smaller);
        answer
    }

    fn have_no_places(&self) {
        assert!(self.sums.buyers().is_empty() && self.sums.sellers().is_empty());
        assert!(self.volumes.volumes().is_empty());
    }
}

fn answer(text: &str) -> AuctionAnswer {
    let (orders, reference) = book(text);
    Both::default().price(&orders, reference)
}

/// Each step decides where those before it leave two prices equal.
#[test]
fn the_four_steps() {
    let apart = "buy limit 2.00 x 100\nsell limit 2.06 x 100\n";
    let cross = "buy ato x 100\nsell ato x 100\n";
    let with = |more: &str| answer(&format!("{apart}{cross}{more}"));
    assert_eq!(
        with("reference 2.03\nbuy atc x 1\nsell ato x 2"),
        given(2_00, 102)
    );
    assert_eq!(
        with("reference 2.03\nsell limit 2.06 x 1"),
        given(2_00, 100)
    );
    assert_eq!(with("reference 2.03\nbuy limit 2.00 x 1"), given(2_06, 100));
    assert_eq!(with("reference 2.02"), given(2_00, 100));
    assert_eq!(with("reference 2.04"), given(2_06, 100));
    assert_eq!(with("reference 2.03"), given(2_06, 100));
    assert_eq!(with("reference 42949672.95"), given(2_06, 100));
    assert_eq!(with("reference -"), given(2_00, 100));
    assert_eq!(with(""), given(2_00, 100));
}

#[test]
fn none() {
    assert_eq!(answer(""), AuctionAnswer::None);
    assert_eq!(answer("buy ato x 100\nsell ato x 100"), AuctionAnswer::None);
    assert_eq!(answer("buy limit 2.00 x 100"), AuctionAnswer::None);
    let apart = "buy limit 2.00 x 100\nsell limit 2.02 x 100\n";
    assert_eq!(answer(apart), AuctionAnswer::None);
    assert_eq!(answer(&format!("{apart}sell atc x 1")), given(2_00, 1));
}

#[test]
fn bad_orders_in_any_place() {
    let good = limit(Side::Buy, 50_00, 100);
    let mut both = Both::default();
    for bad in bad_orders() {
        for place in 0..3 {
            let mut orders = [good; 3];
            orders[place] = bad;
            let answer = both.price(&orders, 0);
            assert_eq!(answer, AuctionAnswer::Refused(15), "{bad:?}");
            both.have_no_places();
            assert_eq!(both.price(&[good; 3], 0), AuctionAnswer::None);
            assert_eq!(both.sums.buyers(), [300; 3]);
            assert_eq!(both.volumes.volumes(), [0; 3]);
        }
    }
    let ends = [1, MAX_VOLUME].map(|volume| limit(Side::Sell, MAX_PRICE, volume));
    assert_eq!(both.price(&ends, 0), AuctionAnswer::None);
}

#[test]
fn the_longest_list() {
    let mut both = Both::default();
    let mut orders = vec![at_auction(Side::Buy, MAX_VOLUME); MAX_AUCTION_ORDERS];
    orders[MAX_AUCTION_ORDERS - 1] = limit(Side::Sell, 1, MAX_VOLUME);
    assert_eq!(both.price(&orders, 0), given(1, MAX_VOLUME.into()));
    assert_eq!(both.sums.buyers().len(), MAX_AUCTION_ORDERS);
    let all = u64::from(MAX_VOLUME) * 1_023;
    assert_eq!(both.sums.buyers().last(), Some(&all));
    assert_eq!(both.volumes.volumes().last(), Some(&MAX_VOLUME.into()));
    // Asked before 15, however long the list is.
    orders[0].volume = 0;
    for longer in [1, 2, 5_000] {
        let mut orders = orders.clone();
        orders.resize(MAX_AUCTION_ORDERS + longer, at_auction(Side::Sell, 1));
        assert_eq!(both.price(&orders, 0), AuctionAnswer::Refused(14));
        both.have_no_places();
    }
    assert_eq!(both.price(&orders, 0), AuctionAnswer::Refused(15));
}

/// Random lists beside the request's words, written down once more.
#[test]
fn beside_the_request() {
    let mut seed = 1_u32;
    let mut random = |below: u32| {
        seed = seed.wrapping_mul(1_664_525).wrapping_add(1_013_904_223);
        (seed >> 8) % below
    };
    let mut both = Both::default();
    let mut nones = 0;
    for _ in 0..2_000 {
        let near = 1 + random(MAX_POSITION - 6);
        let orders: Vec<AuctionOrder> = (0..random(12))
            .map(|_| AuctionOrder {
                side: Side::ALL[random(2) as usize],
                price: (random(5) > 0).then(|| price(near + random(6)).unwrap()),
                volume: 1 + random(4),
            })
            .collect();
        let reference = price(near + random(6)).unwrap() + random(2);
        let sum = |side, counts: &dyn Fn(u32) -> bool| -> u64 {
            let counted = orders.iter().filter(|order| order.side == side);
            let counted = counted.filter(|order| order.price.is_none_or(counts));
            counted.map(|order| u64::from(order.volume)).sum()
        };
        let sums = |price: u32| {
            let buyers = sum(Side::Buy, &|limit| limit >= price);
            (buyers, sum(Side::Sell, &|limit| limit <= price))
        };
        let best = orders
            .iter()
            .filter_map(|order| order.price)
            .min_by_key(|&price| {
                let (buyers, sellers) = sums(price);
                let volume = std::cmp::Reverse(buyers.min(sellers));
                let distance = price.abs_diff(reference);
                (
                    volume,
                    buyers.abs_diff(sellers),
                    distance,
                    std::cmp::Reverse(price),
                )
            });
        let expected = match best.map(|price| (price, sums(price).0.min(sums(price).1))) {
            Some((price, volume)) if volume > 0 => given(price, volume),
            _ => AuctionAnswer::None,
        };
        nones += usize::from(expected == AuctionAnswer::None);
        assert_eq!(both.price(&orders, reference), expected, "{orders:?}");
        let left = both.sums.buyers().iter().zip(both.sums.sellers());
        let left: Vec<(u64, u64)> = left.map(|(buyers, sellers)| (*buyers, *sellers)).collect();
        let at = |order: &AuctionOrder| order.price.map_or((0, 0), sums);
        assert_eq!(left, orders.iter().map(at).collect::<Vec<_>>());
    }
    assert!((100..1_900).contains(&nones), "{nones}");
}

/// The bare call: places past the orders, refusals, and longer lists.
#[test]
fn lent_lists() {
    let orders = [bare(0, 50_00, 200), bare(1, 0, 100), bare(1, 50_25, 300)];
    let mut lists = [vec![7; 1_024], vec![9; 2_000]];
    let [buyers, sellers] = &mut lists;
    assert_eq!(
        library::auction(&orders, 0, buyers, sellers),
        numbers(100, 50_00, 0)
    );
    assert_eq!(
        (&buyers[..4], &sellers[..4]),
        (&[200, 0, 0, 7][..], &[100, 0, 400, 9][..])
    );
    assert!(buyers[4..].iter().all(|sum| *sum == 7));
    assert!(sellers[4..].iter().all(|sum| *sum == 9));

    let before = lists.clone();
    let refused = |lists: &mut [Vec<u64>; 2], orders: &[_], lengths: [usize; 2]| {
        let [buyers, sellers] = lists;
        let (buyers, sellers) = (&mut buyers[..lengths[0]], &mut sellers[..lengths[1]]);
        library::auction(orders, 0, buyers, sellers)
    };
    for lengths in [[1_023, 2_000], [1_024, 1_023], [0, 0]] {
        assert_eq!(refused(&mut lists, &orders, lengths), numbers(0, 0, 14));
    }
    let bad = [orders[0], bare(2, 50_00, 100)];
    assert_eq!(refused(&mut lists, &bad, [1_024, 1_024]), numbers(0, 0, 15));
    let bad = [orders[0], bare(u32::MAX, 0, 100)];
    assert_eq!(refused(&mut lists, &bad, [1_024, 1_024]), numbers(0, 0, 15));
    assert_eq!(lists, before);
}

/// Request 6: "at each limit's place in the order list, the volume at that price, and 0
/// elsewhere"; two orders of one price have one each.
#[test]
fn one_lent_list() {
    let orders = [
        bare(0, 50_00, 200),
        bare(1, 0, 100),
        bare(0, 50_00, 1),
        bare(1, 50_25, 300),
    ];
    for length in [1_024, 1_025, 2_000] {
        let mut list = vec![7; 2_001];
        let given = library::auction_volumes(&orders, 0, &mut list[..length]);
        assert_eq!(given, numbers(100, 50_00, 0));
        assert_eq!(list[..4], [100, 0, 100, 0]);
        assert!(list[4..length].iter().all(|volume| *volume == 0));
        assert!(list[length..].iter().all(|held| *held == 7));

        let given = library::auction_volumes(&[], 0, &mut list[..length]);
        assert_eq!(given, numbers(0, 0, 0));
        assert!(list[..length].iter().all(|volume| *volume == 0));
    }
}

/// The length of the one list, then the orders; nothing changes.
#[test]
fn one_lent_list_refused() {
    let good = bare(0, 50_00, 200);
    let most = [good; 1_025];
    let bad = [
        bare(2, 50_00, 100),
        bare(u32::MAX, 0, 100),
        bare(1, 50_01, 100),
        bare(1, u32::MAX, 100),
        bare(1, 0, 0),
        bare(0, 50_00, MAX_VOLUME + 1),
    ];
    let held: Vec<u64> = (1..=2_000).collect();
    let mut list = held.clone();
    let mut refused = |orders: &[_], length: usize, number| {
        let given = library::auction_volumes(orders, 0, &mut list[..length]);
        assert_eq!(given, numbers(0, 0, number));
        assert_eq!(list, held);
    };
    for length in [0, 1, 1_023] {
        refused(&[], length, 14);
        refused(&[good], length, 14);
        refused(&bad, length, 14);
    }
    for length in [1_024, 2_000] {
        refused(&most, length, 14);
        for bad in bad {
            refused(&[good, bad, good], length, 15);
            let mut many = most;
            many[1_023] = bad;
            refused(&many[..1_024], length, 15);
            refused(&many, length, 14);
        }
    }
}

#[test]
fn shown() {
    let mut auction = AuctionVolumes::new();
    assert_eq!(format!("{auction:?}"), "AuctionVolumes { volumes: [], .. }");
    auction.price(
        &[limit(Side::Buy, 50_00, 200), at_auction(Side::Sell, 100)],
        0,
    );
    let shown = "AuctionVolumes { volumes: [100, 0], .. }";
    assert_eq!(format!("{auction:?}"), shown);
}
