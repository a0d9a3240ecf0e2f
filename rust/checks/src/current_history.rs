//! Calls in turn on one list kept current (paper 02, request 7).

use std::fmt;

use second::auction::{MAX_ORDERS, Order};

use crate::current_call::{Change, CurrentCall, Kept};
use crate::current_comparison::{Current, unlike};
use crate::program::Program;

pub struct History {
    pub kept: Kept,
    /// What the calls that were not refused make of a plain list.
    orders: Vec<Order>,
}

impl History {
    /// All orders that the list is to hold stand in it.
    pub fn new(kept: Kept) -> Self {
        let orders = kept.held().to_vec();
        History { kept, orders }
    }

    /// The next call. The list stays as it was if it is refused.
    pub fn make(
        &mut self,
        program: &mut Program,
        name: fmt::Arguments,
        call: &CurrentCall,
    ) -> Option<Current> {
        let left = program.current(name, call)?;
        if !left.is_refused() {
            call.applied(&mut self.orders);
            self.kept = left.kept.clone();
        }
        Some(left)
    }

    /// The next call on the list as it stands.
    pub fn change(
        &mut self,
        program: &mut Program,
        name: fmt::Arguments,
        change: Change,
        reference: u32,
    ) -> Option<Current> {
        let call = CurrentCall {
            kept: self.kept.clone(),
            change,
            reference,
        };
        self.make(program, name, &call)
    }

    /// After the last call.
    pub fn end(self, program: &mut Program, name: fmt::Arguments) {
        program.holds(
            format_args!("{name}, the list"),
            self.kept.held() == self.orders,
            || {
                let (held, orders) = (self.kept.held(), &self.orders);
                format!("the gate holds {held:?}, the calls make {orders:?}")
            },
        );
    }
}

/// An order that comes and goes leaves everything as a call left it.
pub fn there_and_back(
    program: &mut Program,
    name: fmt::Arguments,
    left: &Current,
    order: Order,
    reference: u32,
) {
    let count = left.kept.count;
    if left.is_refused() || count >= left.kept.orders.len().min(MAX_ORDERS) {
        return;
    }
    let mut history = History::new(left.kept.clone());
    let mut change = |change| history.change(program, name, change, reference);
    let Some(added) = change(Change::Add(order)) else {
        return;
    };
    let Some(taken) = change(Change::Take(count)) else {
        return;
    };
    program.holds(
        format_args!("{name}, there and back"),
        !added.is_refused() && taken == *left,
        || {
            let words = unlike([&left.kept, &taken.kept], ["the call", "both together"]);
            let answers = [left.answer, added.answer, taken.answer];
            format!("{answers:?}; {words:?}")
        },
    );
}
