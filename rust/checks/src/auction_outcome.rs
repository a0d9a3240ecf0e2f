//! An auction with two scratch lists (paper 02, request 5) and with one (request
//! 6): each call beside the second implementation's, and the one beside the other.

use std::fmt;

use guvontsira::library;
use second::auction::{Answer, SCRATCH_PLACES, auction, auction_volumes};

use crate::auction_call::Call;
use crate::auction_comparison::{Left, beside};
use crate::comparison::first_unlike;

#[derive(Clone, Debug)]
pub struct Outcome {
    /// With two scratch lists.
    pub sums: Left<2>,
    /// With one.
    pub volumes: Left<1>,
}

#[derive(Clone, Copy, Debug, PartialEq, Eq)]
pub struct Answers {
    pub with_two: Answer,
    pub with_one: Answer,
}

/// The same with both.
impl From<Answer> for Answers {
    fn from(answer: Answer) -> Self {
        Answers {
            with_two: answer,
            with_one: answer,
        }
    }
}

impl fmt::Display for Answers {
    fn fmt(&self, f: &mut fmt::Formatter<'_>) -> fmt::Result {
        let Answers { with_two, with_one } = self;
        write!(f, "{with_two} with two scratch lists, {with_one} with one")
    }
}

/// `Err` says how the linked functions part from the second implementation, or
/// from each other.
pub fn compare(call: &Call) -> Result<Outcome, String> {
    let sums = beside(
        call,
        [("buyers", &call.buyers), ("sellers", &call.sellers)],
        |orders, reference, [buyers, sellers]| library::auction(orders, reference, buyers, sellers),
        |orders, reference, [buyers, sellers]| auction(orders, reference, buyers, sellers),
    );
    let volumes = beside(
        call,
        [("volumes", &call.volumes)],
        |orders, reference, [volumes]| library::auction_volumes(orders, reference, volumes),
        |orders, reference, [volumes]| auction_volumes(orders, reference, volumes),
    );
    let outcome = Outcome {
        sums: sums.map_err(|difference| format!("with two scratch lists, {difference}"))?,
        volumes: volumes.map_err(|difference| format!("with one scratch list, {difference}"))?,
    };
    outcome.held_to_the_sums(call)?;
    Ok(outcome)
}

impl Outcome {
    pub fn answers(&self) -> Answers {
        Answers {
            with_two: self.sums.answer,
            with_one: self.volumes.answer,
        }
    }

    /// "The price, the volume, "none" and the refusals must be the ones given
    /// before", and the volume at a price is the smaller of request 5's sums. A
    /// list that is too short for one of the calls alone leaves nothing to hold.
    fn held_to_the_sums(&self, call: &Call) -> Result<(), String> {
        let [buyers, sellers] = &self.sums.scratch;
        let [volumes] = &self.volumes.scratch;
        let is_short = |list: &Vec<u64>| list.len() < SCRATCH_PLACES;
        if is_short(volumes) != (is_short(buyers) || is_short(sellers)) {
            return Ok(());
        }
        let answers = self.answers();
        if answers.with_two != answers.with_one {
            return Err(answers.to_string());
        }
        if self.volumes.is_refused() {
            return Ok(());
        }
        let sums = buyers.iter().zip(sellers).take(call.orders.len());
        let mut smaller: Vec<u64> = sums
            .map(|(&buyers, &sellers)| buyers.min(sellers))
            .collect();
        smaller.resize(volumes.len(), 0);
        first_unlike(volumes, &smaller).map_or(Ok(()), |place| {
            let (volume, smaller) = (volumes[place], smaller[place]);
            Err(format!(
                "place {place} of the volumes' list is {volume}, and by the sums it should be \
                 {smaller}"
            ))
        })
    }
}

#[cfg(test)]
mod tests {
    use super::*;
    use crate::auctions::{ATO, buy, price, sell};
    use crate::random::Random;

    /// 100 and 200 shares at the one price.
    fn call(places: [usize; 3]) -> Call {
        let orders = [buy(50_00, 100), sell(ATO, 50), sell(50_00, 150)];
        Call::new(&mut Random::new(1), &orders, 0, places)
    }

    #[test]
    fn alike() {
        let outcome = compare(&call([1_024, 1_024, 1_025])).unwrap();
        assert_eq!(outcome.answers(), price(50_00, 100).into());
        for (list, sum) in outcome.sums.scratch.iter().zip([100, 200]) {
            assert_eq!(list[..3], [sum, 0, sum]);
        }
        let [volumes] = &outcome.volumes.scratch;
        assert_eq!(volumes[..3], [100, 0, 100]);
        assert_eq!(volumes[3..], [0; 1_022]);
    }

    #[test]
    fn one_short_list_is_of_its_call_alone() {
        let [done, refused] = [price(50_00, 100), Answer::Refused(14)];
        for (places, with_two, with_one) in [
            ([1_024, 1_023, 1_024], refused, done),
            ([1_024, 1_024, 1_023], done, refused),
            ([1_023, 1_024, 0], refused, refused),
        ] {
            let answers = compare(&call(places)).unwrap().answers();
            assert_eq!(answers, Answers { with_two, with_one }, "{places:?}");
        }
    }

    #[test]
    fn what_parts_the_two_calls() {
        let call = call([1_024; 3]);
        let outcome = compare(&call).unwrap();
        let parted = |change: fn(&mut Left<1>)| {
            let mut outcome = outcome.clone();
            change(&mut outcome.volumes);
            outcome.held_to_the_sums(&call)
        };
        assert_eq!(parted(|_| {}), Ok(()));
        for (change, message) in [
            (
                (|left| left.answer = Answer::None) as fn(&mut Left<1>),
                "price 5000 volume 100 with two scratch lists, none with one",
            ),
            (
                |left| left.scratch[0][2] = 200,
                "place 2 of the volumes' list is 200, and by the sums it should be 100",
            ),
            (
                |left| left.scratch[0][1] = 7,
                "place 1 of the volumes' list is 7, and by the sums it should be 0",
            ),
            (
                |left| left.scratch[0][1_023] = 7,
                "place 1023 of the volumes' list is 7, and by the sums it should be 0",
            ),
        ] {
            assert_eq!(parted(change), Err(message.into()));
        }
    }
}
