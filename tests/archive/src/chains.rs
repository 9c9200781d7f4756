//! Ticket 4 of document 02: states whose free chains were cut or joined wrongly, and some that were joined anew as they
//! should be. What the archive says of each is compared with the model's reading by sets.

use crate::Host;
use crate::random::{Random, any_buffer, any_call, begun};
use model::door::Call;
use model::layout::{NEXT, NEXT_FREE};
use model::{FRAME, HEADER};
use std::collections::BTreeMap;

/// Where one table's chain lies: the extent's place in the head, then root and live number; and its link in a slot.
#[derive(Clone, Copy)]
struct Side {
    head: usize,
    width: usize,
    link: usize,
    of: fn(&mut Host) -> &mut Vec<u64>,
}

const SIDES: [Side; 2] = [
    Side { head: 1, width: FRAME, link: NEXT, of: |host| &mut host.elems },
    Side { head: 5, width: HEADER, link: NEXT_FREE, of: |host| &mut host.shared },
];

impl Side {
    fn extent(self, host: &mut Host) -> &mut u64 {
        &mut host.head[self.head]
    }

    /// What leads to the place `k` of the chain: the root, or the link of the slot before it.
    fn to<'a>(self, host: &'a mut Host, chain: &[u64], k: usize) -> &'a mut u64 {
        if k == 0 {
            return &mut host.head[self.head + 1];
        }
        &mut (self.of)(host)[(chain[k - 1] as usize - 1) * self.width + self.link]
    }

    /// The slots on the chain of a sound state.
    fn chain(self, host: &mut Host) -> Vec<u64> {
        let mut chain = vec![];
        loop {
            match *self.to(host, &chain, chain.len()) {
                0 => return chain,
                slot => chain.push(slot),
            }
        }
    }

    /// Joins these slots, in this order.
    fn join(self, host: &mut Host, chain: &[u64]) {
        for k in 0..=chain.len() {
            *self.to(host, chain, k) = chain.get(k).copied().unwrap_or(0);
        }
    }
}

/// What was done to a chain, with how many states it left sound, and how many not.
pub type Tally = BTreeMap<&'static str, [u64; 2]>;

/// Panics at the first difference.
pub fn compare(cases: u64, seed: u64) -> Tally {
    let mut r = Random::new(seed);
    let mut tally = Tally::new();
    let mut grown = begun(&mut r);
    while tally.values().flatten().sum::<u64>() < cases {
        let call = any_call(&grown, &mut r);
        let lent = any_buffer(&grown, &call, &mut r);
        grown.call(call, &lent);
        if r.one_in(80) {
            grown = begun(&mut r);
        }
        let side = r.of(&SIDES);
        let mut host = grown.clone();
        let chain = side.chain(&mut host);
        let Some(what) = change(&mut host, side, chain, &mut r) else { continue };
        let sound = host.call(Call::Check, &[]).number == 0;
        tally.entry(what).or_default()[usize::from(!sound)] += 1;
        // and each is called: refused 2, or given a slot while one is free
        host.call(Call::InsertSurject { payload: r.below(50), value: r.below(50), size: r.size() }, &[]);
    }
    tally
}

/// Nothing where the chain is too short for it.
fn change(host: &mut Host, side: Side, mut chain: Vec<u64>, r: &mut Random) -> Option<&'static str> {
    let (capacity, extent) = (host.head[side.head - 1], *side.extent(host));
    let length = chain.len() as u64;
    let kind = r.below(9);
    if kind < 5 && length == 0 || (kind == 6 || kind == 7) && extent == capacity {
        return None;
    }
    let k = r.below(length.max(1)) as usize;
    Some(match kind {
        0 => {
            *side.to(host, &chain, k) = 0;
            "cut"
        }
        1 => {
            *side.to(host, &chain, k) = chain.get(k + 1).copied().unwrap_or(0);
            "a slot left out"
        }
        2 => {
            *side.to(host, &chain, k + 1) = chain[r.below(length) as usize];
            "joined to a slot of it"
        }
        3 => {
            *side.to(host, &chain, k) = r.below(capacity + 2);
            "joined to any slot"
        }
        4 => {
            for at in (1..chain.len()).rev() {
                chain.swap(at, r.below(at as u64 + 1) as usize);
            }
            side.join(host, &chain);
            "another order"
        }
        5 => {
            let live = &mut host.head[side.head + 2];
            *live = if *live == 0 || r.one_in(2) { *live + 1 } else { *live - 1 };
            "live number one off"
        }
        6 => {
            *side.extent(host) += 1;
            "extent one higher"
        }
        7 => {
            *side.extent(host) += 1;
            chain.insert(r.below(length + 1) as usize, extent + 1);
            side.join(host, &chain);
            "extent one higher, the slot joined"
        }
        _ => "as it was",
    })
}
