//! The percentile of products in any order, beside `sort_unstable`.

use library::PercentileAnswer;

use crate::timing::{against, Growth};

pub fn bench() -> Growth {
    let [small, large] = [1_024, 8_192].map(|count| {
        let products = products(count);
        let mut ours = vec![0; count];
        let mut theirs = vec![0; count];
        let took = against(
            &format!("10 percentiles of {count} products"),
            || {
                (0..10)
                    .map(|_| library::percentile(&products, &mut ours).q)
                    .sum()
            },
            || (0..10).map(|_| plain(&products, &mut theirs).q).sum(),
        );
        assert_eq!(ours, theirs);
        took
    });
    Growth {
        work: "a percentile",
        small,
        large,
    }
}

/// Products in no order.
fn products(count: usize) -> Vec<u32> {
    let mut state = 2017_1151u64;
    (0..count)
        .map(|_| {
            state = state
                .wrapping_mul(6_364_136_223_846_793_005)
                .wrapping_add(1_442_695_040_888_963_407);
            (state >> 33) as u32 % 625_000_001
        })
        .collect()
}

/// The percentile in plain Rust: the same refusals, then a copy, a sort and the interpolation.
#[inline(never)]
fn plain(products: &[u32], ranks: &mut [u32]) -> PercentileAnswer {
    let refused = |refusal, place| PercentileAnswer {
        refusal,
        q: 0,
        place,
    };
    let m = products.len();
    if m > 8_192 {
        return refused(2, 0);
    }
    if m < 100 {
        return refused(12, 0);
    }
    if ranks.len() < m {
        return refused(6, 0);
    }
    if let Some(place) = products.iter().position(|&p| p > 625_000_000) {
        return refused(3, place);
    }
    let ranks = &mut ranks[..m];
    ranks.copy_from_slice(products);
    ranks.sort_unstable();
    let (j, r) = (95 * m / 100, 95 * m % 100);
    let x = |j: usize| u64::from(ranks[j - 1]);
    let q = if r == 0 {
        100 * x(j)
    } else {
        100 * x(j) + r as u64 * (x(j + 1) - x(j))
    };
    PercentileAnswer {
        refusal: 0,
        q,
        place: 0,
    }
}
