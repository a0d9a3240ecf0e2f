//! One lent list on which orders come and go (paper 02, request 7).
//!
//! In turns an order is added at the end and one is taken out of a place that is
//! drawn, each call by itself under the clock: so the list holds as many orders as the
//! line says after every add and before every take. The next order has the price of
//! the one that went, and another side and volume, so that the book changes and its
//! prices stay shared or different.
//!
//! Beside each stands request 6's price of the list that it leaves: after an add of as
//! many orders as the line says, after a take of one fewer. Both are timed in a second
//! pass, where the list is changed without the library: each call follows the same lists
//! in the same order, and what the processor learned of them is the same.

use std::hint::black_box;
use std::time::{Duration, Instant};

use guvontsira::library::{self, AuctionOrder};
use second::auction::{Order, SCRATCH_PLACES, auction_volumes};
use second::current;

use super::ORDERS;
use super::book::{Book, Prices, Random, of_gate};
use super::call::Given;
use crate::compare::{Difference, first_unlike};
use crate::implementation::Implementation;
use crate::measure::medians;

pub const NAME: &str = "current";

/// Orders, and places of the list: no more than they need, or 1,024, of which those
/// past the orders are set to zero.
const SIZES: [[usize; 2]; 5] = [
    [16, 16],
    [16, 1_024],
    [128, 128],
    [128, 1_024],
    [1_024, 1_024],
];

#[derive(Clone, Copy, Debug, PartialEq, Eq)]
pub enum Step {
    Add,
    /// Request 6's call on the list that an add leaves.
    VolumesAdded,
    Take,
    /// Request 6's call on the list that a take leaves.
    VolumesTaken,
}

impl Step {
    pub const ALL: [Step; 4] = [
        Step::Add,
        Step::VolumesAdded,
        Step::Take,
        Step::VolumesTaken,
    ];

    pub fn name(self) -> &'static str {
        match self {
            Step::Add => "add",
            Step::VolumesAdded => "volumes-add",
            Step::Take => "take",
            Step::VolumesTaken => "volumes-take",
        }
    }

    /// Request 6's call on the list that this step leaves.
    pub fn volumes(self) -> Step {
        match self {
            Step::Add | Step::VolumesAdded => Step::VolumesAdded,
            Step::Take | Step::VolumesTaken => Step::VolumesTaken,
        }
    }

    /// This call of an implementation, with a reference.
    fn of(self, which: Implementation) -> fn(&mut Lent, &Turn, u32) -> Given {
        match (self, which) {
            (Step::Add, Implementation::Gate) => |lent, turn, reference| {
                let (orders, count) = (&mut lent.gate, &mut lent.count);
                let order = of_gate(&turn.order);
                Given::Gate(library::auction_add(
                    orders,
                    count,
                    order,
                    reference,
                    &mut lent.volumes,
                ))
            },
            (Step::Add, Implementation::Second) => |lent, turn, reference| {
                let (orders, count) = (&mut lent.second, &mut lent.count);
                let volumes = &mut lent.volumes;
                Given::Second(current::add(orders, count, turn.order, reference, volumes))
            },
            (Step::Take, Implementation::Gate) => |lent, turn, reference| {
                let (orders, count) = (&mut lent.gate, &mut lent.count);
                Given::Gate(library::auction_take(
                    orders,
                    count,
                    turn.place,
                    reference,
                    &mut lent.volumes,
                ))
            },
            (Step::Take, Implementation::Second) => |lent, turn, reference| {
                let (orders, count) = (&mut lent.second, &mut lent.count);
                let volumes = &mut lent.volumes;
                Given::Second(current::take(orders, count, turn.place, reference, volumes))
            },
            (Step::VolumesAdded | Step::VolumesTaken, Implementation::Gate) => {
                |lent, _, reference| {
                    let held = &lent.gate[..lent.count];
                    Given::Gate(library::auction_volumes(held, reference, &mut lent.volumes))
                }
            }
            (Step::VolumesAdded | Step::VolumesTaken, Implementation::Second) => {
                |lent, _, reference| {
                    let held = &lent.second[..lent.count];
                    Given::Second(auction_volumes(held, reference, &mut lent.volumes))
                }
            }
            (_, Implementation::Tuned) => unreachable!("the tuned one has no auction"),
        }
    }
}

/// An order comes, and one goes from a place.
struct Turn {
    order: Order,
    place: usize,
}

/// An implementation has its own list of the two, and leaves the other one.
#[derive(Clone)]
struct Lent {
    gate: Vec<AuctionOrder>,
    second: Vec<Order>,
    count: usize,
    volumes: Vec<u64>,
}

impl Lent {
    /// What stands past the orders is not zero, so that a comparison sees where it is
    /// set to zero; so it is with the scratch list.
    fn new(held: &[Order], places: usize) -> Self {
        let past = Order {
            side: 1,
            price: 1,
            volume: 1,
        };
        let mut orders = held.to_vec();
        orders.resize(places, past);
        let Book { gate, second } = Book::new(orders);
        Lent {
            gate,
            second,
            count: held.len(),
            volumes: vec![u64::MAX; SCRATCH_PLACES],
        }
    }

    fn copy(&mut self, start: &Lent) {
        self.gate.copy_from_slice(&start.gate);
        self.second.copy_from_slice(&start.second);
        self.count = start.count;
        self.volumes.copy_from_slice(&start.volumes);
    }

    /// Adds an order without the library.
    fn push(&mut self, order: Order) {
        self.gate[self.count] = of_gate(&order);
        self.second[self.count] = order;
        self.count += 1;
    }

    /// Takes an order out without the library.
    fn remove(&mut self, place: usize) {
        self.gate.copy_within(place + 1..self.count, place);
        self.second.copy_within(place + 1..self.count, place);
        self.count -= 1;
    }

    /// All numbers of an implementation's list.
    fn numbers(&self, which: Implementation) -> Vec<u32> {
        match which {
            Implementation::Gate => {
                let orders = self.gate.iter();
                let numbers = orders.map(|order| [order.side, order.price, order.volume]);
                numbers.flatten().collect()
            }
            _ => {
                let orders = self.second.iter();
                let numbers = orders.map(|order| [order.side, order.price, order.volume]);
                numbers.flatten().collect()
            }
        }
    }
}

/// What one line of the table is measured over.
pub struct Current {
    pub prices: Prices,
    /// After an add and before a take.
    pub orders: usize,
    /// Of the list.
    pub places: usize,
    reference: u32,
    start: Lent,
    turns: Vec<Turn>,
}

impl Current {
    /// The same orders for every run and for every implementation.
    pub fn all() -> Vec<Current> {
        let lines = [Prices::Shared, Prices::Different]
            .into_iter()
            .flat_map(|prices| SIZES.map(|size| (prices, size)));
        lines
            .map(|(prices, [orders, places])| Current::prepare(prices, orders, places))
            .collect()
    }

    fn prepare(prices: Prices, orders: usize, places: usize) -> Current {
        let mut random = Random(1);
        let mut held = prices.book(orders, &mut random).second;
        let mut order = held.pop().expect("a book has orders");
        let start = Lent::new(&held, places);
        let mut turns = Vec::new();
        for _ in 0..ORDERS / orders {
            let place = random.below(orders as u32) as usize;
            turns.push(Turn { order, place });
            held.push(order);
            let gone = held.remove(place);
            order = random.order(gone.price);
        }
        Current {
            prices,
            orders,
            places,
            reference: prices.middle(orders),
            start,
            turns,
        }
    }

    /// The first implementation of several is the gate; one alone is not run.
    pub fn compare(&self, implementations: &[Implementation]) -> Result<(), Difference> {
        self.compare_by(implementations, |step, which, lent, turn| {
            step.of(which)(lent, turn, self.reference).to_string()
        })
    }

    fn compare_by(
        &self,
        implementations: &[Implementation],
        answer: impl Fn(Step, Implementation, &mut Lent, &Turn) -> String,
    ) -> Result<(), Difference> {
        let &[gate, _, ..] = implementations else {
            return Ok(());
        };
        for &other in &implementations[1..] {
            let mut lents = [self.start.clone(), self.start.clone()];
            for (number, turn) in self.turns.iter().enumerate() {
                for step in Step::ALL {
                    let [ours, theirs] = &mut lents;
                    let answers = [
                        answer(step, gate, ours, turn),
                        answer(step, other, theirs, turn),
                    ];
                    let after = format!("{} {number}", step.name());
                    unlike([gate, other], [ours, theirs], answers, &after)?;
                }
            }
        }
        Ok(())
    }

    /// Nanoseconds a call: for each step those of each implementation, which take
    /// turns.
    pub fn measure(&self, implementations: &[Implementation], repeats: usize) -> Vec<Vec<f64>> {
        let mut lents = vec![self.start.clone(); implementations.len()];
        let medians = medians(implementations.len(), repeats, |place| {
            self.time(implementations[place], &mut lents[place])
        });
        let nanoseconds = |time: Duration| time.as_nanos() as f64 / self.turns.len() as f64;
        let of_step = |step: Step| {
            let times = medians.iter().map(|times| times[step as usize]);
            times.map(nanoseconds).collect()
        };
        Step::ALL.into_iter().map(of_step).collect()
    }

    /// How long each step takes over all turns.
    fn time(&self, which: Implementation, lent: &mut Lent) -> [Duration; Step::ALL.len()] {
        let [add, volumes, take, _] = Step::ALL.map(|step| step.of(which));
        let timed = |call: fn(&mut Lent, &Turn, u32) -> Given, lent: &mut Lent, turn: &Turn| {
            let begin = Instant::now();
            black_box(call(lent, black_box(turn), self.reference));
            begin.elapsed()
        };
        let mut times = [Duration::ZERO; Step::ALL.len()];
        let [added, priced_added, taken, priced_taken] = &mut times;
        lent.copy(&self.start);
        for turn in &self.turns {
            *added += timed(add, lent, turn);
            *taken += timed(take, lent, turn);
        }
        lent.copy(&self.start);
        for turn in &self.turns {
            lent.push(turn.order);
            *priced_added += timed(volumes, lent, turn);
            lent.remove(turn.place);
            *priced_taken += timed(volumes, lent, turn);
        }
        times
    }
}

/// Where a call of another differs from the gate's, by what it gave and left.
fn unlike(
    [gate, other]: [Implementation; 2],
    [ours, theirs]: [&Lent; 2],
    answers: [String; 2],
    after: &str,
) -> Result<(), Difference> {
    let differs = |what: String, values| Err(Difference::new(other, what, values));
    if answers[0] != answers[1] {
        return differs(format!("answer to {after}"), answers);
    }
    if ours.count != theirs.count {
        let counts = [ours.count, theirs.count].map(|count| count.to_string());
        return differs(format!("count after {after}"), counts);
    }
    let lists = [ours.numbers(gate), theirs.numbers(other)];
    if let Some((place, values)) = first_unlike(&lists[0], &lists[1]) {
        return differs(format!("number {place} of the list after {after}"), values);
    }
    if let Some((place, values)) = first_unlike(&ours.volumes, &theirs.volumes) {
        let what = format!("word {place} of the scratch list after {after}");
        return differs(what, values);
    }
    Ok(())
}

#[cfg(test)]
mod tests {
    use super::*;

    #[test]
    fn all_are_alike() {
        for line in Current::all() {
            assert_eq!(line.compare(&Implementation::AUCTION), Ok(()));
        }
    }

    #[test]
    fn as_many_orders_as_the_line_says() {
        for line in Current::all() {
            let mut lent = line.start.clone();
            let mut prices = 0;
            for turn in &line.turns {
                let counts = [(Step::Add, line.orders), (Step::Take, line.orders - 1)];
                for (step, count) in counts {
                    let given = step.of(Implementation::Second)(&mut lent, turn, line.reference);
                    prices += usize::from(given.to_string().starts_with("price "));
                    // It would be another one if the call were refused.
                    assert_eq!(lent.count, count);
                }
            }
            assert_eq!(lent.second.len(), line.places);
            let calls = 2 * line.turns.len();
            assert!(prices * 100 >= calls * 99, "{prices} prices of {calls}");
        }
    }

    /// The lists that are priced are those that an add and a take leave.
    #[test]
    fn changed_without_the_library() {
        for line in Current::all() {
            let mut lents = [line.start.clone(), line.start.clone()];
            let [lent, changed] = &mut lents;
            for turn in &line.turns {
                Step::Add.of(Implementation::Second)(lent, turn, line.reference);
                changed.push(turn.order);
                assert_eq!(lent.second[..lent.count], changed.second[..changed.count]);
                Step::Take.of(Implementation::Second)(lent, turn, line.reference);
                changed.remove(turn.place);
                assert_eq!(lent.second[..lent.count], changed.second[..changed.count]);
            }
            let Book { gate, second } = Book::new(changed.second.clone());
            assert_eq!(
                (gate, second),
                (changed.gate.clone(), changed.second.clone())
            );
        }
    }

    #[test]
    fn places_are_spread_over_the_list() {
        for line in Current::all().iter().filter(|line| line.orders < 1_024) {
            let mut places: Vec<usize> = line.turns.iter().map(|turn| turn.place).collect();
            places.sort_unstable();
            places.dedup();
            assert!(places.len() > line.orders / 4, "{places:?}");
        }
    }

    #[test]
    fn what_differs() {
        let line = Current::prepare(Prices::Shared, 16, 16);
        let differs = |edit: fn(Step, Implementation, &mut Lent) -> String| {
            let difference = line.compare_by(&Implementation::AUCTION, |step, which, lent, _| {
                edit(step, which, lent)
            });
            difference.unwrap_err().to_string()
        };
        assert_eq!(
            differs(|_, which, _| String::from(which.name())),
            "answer to add 0: gate gate, second second"
        );
        assert_eq!(
            differs(|_, which, lent| {
                lent.count = usize::from(which == Implementation::Second);
                String::new()
            }),
            "count after add 0: gate 0, second 1"
        );
        assert_eq!(
            differs(|step, _, lent| {
                lent.gate[15].volume = 7;
                lent.second[15].volume = 7 + u32::from(step == Step::Take);
                String::new()
            }),
            "number 47 of the list after take 0: gate 7, second 8"
        );
        assert_eq!(
            differs(|_, which, lent| {
                lent.volumes[1_023] = u64::from(which == Implementation::Second);
                String::new()
            }),
            "word 1023 of the scratch list after add 0: gate 0, second 1"
        );
    }
}
