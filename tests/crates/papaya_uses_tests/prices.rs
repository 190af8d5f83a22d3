// A price list that four threads fill, and that two threads then read at once.
use crate::expect::is;
use papaya::Refused;
use papaya_uses::prices::{PriceList, Prices, pieces_for_two, record_all};
use std::alloc::Global;
use std::sync::Wait;
use std::test::Fail;
use std::thread::Threads;

/// The price list of these articles, if it has no price 0.
fn listed(
    rt: &(impl Threads + Wait + Sync),
    alloc: Global,
    articles: &[(u64, u64)],
) -> Result<Option<PriceList>, Refused> {
    let prices = Prices::new(rt, alloc)?;
    record_all(rt, alloc, &prices, articles)?;
    PriceList::new(rt, prices)
}

#[test]
fn threads_fill_and_read_a_price_list(rt: HostRuntime) -> Result<(), Fail> {
    let articles = [(1, 10), (2, 25), (3, 4), (4, 30), (5, 7), (6, 1)];
    let list = listed(&rt, rt.alloc(), &articles)?;
    is(&rt, list.is_some(), true);
    if let Some(list) = &list {
        is(&rt, list.pieces(3, 21), Some(5));
        is(&rt, list.pieces(7, 21), None);
        is(
            &rt,
            pieces_for_two(&rt, list, 2, (100, 24)),
            (Some(4), Some(0)),
        );
    }
    Ok(())
}

#[test]
fn a_price_of_nothing_is_refused(rt: HostRuntime) -> Result<(), Fail> {
    let articles = [(1, 10), (2, 0), (3, 4)];
    let list = listed(&rt, rt.alloc(), &articles)?;
    is(&rt, list.is_none(), true);
    Ok(())
}
