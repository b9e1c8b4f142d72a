//! The reasons of a verdict, tested by masks.

use oracle::reasons;

use crate::account::{Account, Comparison};
use crate::random::Random;

pub fn compare(account: &mut Account) {
    let seed = account.seed;
    account.compare("reasons, each mask on each verdict", each_mask);
    account.compare("reasons, masks of several", |c| several(c, seed));
}

fn tested(comparison: &mut Comparison, verdict: u16, mask: u16) {
    comparison.same(
        library::has_reason(verdict, mask),
        reasons::has_reason(verdict, mask),
        || format!("verdict {verdict:04x}, mask {mask:04x}"),
    );
}

/// The masks of the sixteen reasons.
fn each_mask(comparison: &mut Comparison) {
    for verdict in 0..=u16::MAX {
        for bit in 0..u16::BITS {
            tested(comparison, verdict, 1 << bit);
        }
    }
}

/// No reason, every reason, and masks of any.
fn several(comparison: &mut Comparison, seed: u64) {
    let mut random = Random::new(seed ^ 45);
    for verdict in 0..=u16::MAX {
        let any = random.bits() as u16;
        // few bits, so that the answer is often no
        let few = any & random.bits() as u16 & random.bits() as u16;
        for mask in [0, u16::MAX, any, few] {
            tested(comparison, verdict, mask);
        }
    }
}
