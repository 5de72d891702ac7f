//! Which premises bite: lists with exactly one premise broken, and the smallest of them on which the claim fails.

use crate::claims::*;
use crate::random::*;
use crate::shrink::*;
use crate::*;

/// What was found for a premise.
#[derive(Clone, Default)]
pub struct Broken {
    /// Lists that break this premise and no other.
    pub seen: u64,
    /// Those of them on which the claim fails.
    pub failed: u64,
    /// The smallest of these.
    pub smallest: Option<(Begin, Vec<Call>)>,
}

impl Broken {
    fn add(&mut self, begin: &Begin, calls: &[Call], fails: bool) {
        self.seen += 1;
        if !fails {
            return;
        }
        self.failed += 1;
        if self.smallest.as_ref().is_none_or(|(_, least)| weight(calls) < weight(least)) {
            self.smallest = Some((begin.clone(), calls.to_vec()));
        }
    }

    fn shrink(&mut self, keep: &dyn Fn(&Begin, &[Call]) -> bool) {
        if let Some((begin, calls)) = &mut self.smallest {
            (*begin, *calls) = shrink(begin, calls, keep);
        }
    }
}

/// What was found for each premise of demand 3, and for each further one of K13.
pub struct Found {
    pub demand3: Vec<Broken>,
    pub k13: Vec<Broken>,
}

/// Trees that are accepted, and for which the original's sort of inlinee ranges has a single outcome.
fn is_settled(calls: &[Call]) -> bool {
    calls.iter().all(|c| match c {
        Call::Tree(t) => tree_refusal(t).is_none() && ranges_in_domain(t),
        _ => true,
    })
}

/// Whether premise `i` of demand 3 alone is broken, and the original's file fails demand 3.
pub fn breaks_demand3(i: usize, begin: &Begin, calls: &[Call]) -> bool {
    violations(calls) == 1 << i
        && is_settled(calls)
        && run(begin, calls, Mode::Force3).is_err_and(|f| f.claim == "demand 3")
}

/// The same for a further premise of K13.
pub fn breaks_k13(i: usize, begin: &Begin, calls: &[Call]) -> bool {
    violations(calls) == 0
        && violations13(calls) == 1 << i
        && run(begin, calls, Mode::Force13).is_err_and(|f| f.claim == "K13")
}

/// Changes lists that meet the premises, and keeps those that break exactly one.
pub fn search(count: u64, seed: u64) -> Found {
    let mut r = Random::new(seed);
    let mut found = Found { demand3: vec![Broken::default(); PREMISES.len()], k13: vec![Broken::default(); PREMISES13.len()] };
    for _ in 0..count {
        let kind = if r.one_in(2) { Symbols::Gaps } else { Symbols::Any };
        let (begin, mut calls) = good_list(&mut r, kind);
        calls.retain(|c| *c != Call::Write);
        calls.push(Call::Write);
        for _ in 0..r.within(1, 4) {
            mutate(&mut r, &mut calls);
            // Refused trees only dilute.
            calls.retain(|c| !matches!(c, Call::Tree(t) if tree_refusal(t).is_some()));
            if !is_settled(&calls) {
                continue;
            }
            let bad = violations(&calls);
            if bad.count_ones() == 1 {
                let fails = run(&begin, &calls, Mode::Force3).is_err_and(|f| f.claim == "demand 3");
                found.demand3[bad.trailing_zeros() as usize].add(&begin, &calls, fails);
            }
            let bad13 = violations13(&calls);
            if bad == 0 && bad13.count_ones() == 1 {
                let fails = run(&begin, &calls, Mode::Force13).is_err_and(|f| f.claim == "K13");
                found.k13[bad13.trailing_zeros() as usize].add(&begin, &calls, fails);
            }
        }
    }
    for (i, b) in found.demand3.iter_mut().enumerate() {
        b.shrink(&|begin, calls| breaks_demand3(i, begin, calls));
    }
    for (i, b) in found.k13.iter_mut().enumerate() {
        b.shrink(&|begin, calls| breaks_k13(i, begin, calls));
    }
    found
}
