// The cache, in which each generation stores four pages: which pages stay, and which are dropped.
use papaya_uses::cache::Cache;
use std::alloc::Global;
use std::process::Abort;
use std::test::Fail;

/// Returns a cache into which these pages were put, in their order.
fn filled(alloc: Global, pages: &[(u64, &str)]) -> Result<Cache, Fail> {
    let mut cache = Cache::new(alloc, 4)?;
    for (page, text) in pages {
        puts(alloc, &mut cache, *page, text)?;
    }
    Ok(cache)
}

/// Puts a further page in.
fn puts(alloc: Global, cache: &mut Cache, page: u64, text: &str) -> Result<(), Fail> {
    let text = text.to_string(alloc)?;
    cache.put(page, text)?;
    Ok(())
}

/// Checks that the cache has these texts of these pages, or none.
fn has(rt: &impl Abort, cache: &Cache, wanted: &[(u64, Option<&str>)]) {
    for (page, text) in wanted {
        assert_eq!(rt; cache.get(*page), *text, "of {page}");
    }
}

/// Eight pages, which fill both generations.
const EIGHT: [(u64, &str); 8] = [
    (1, "a"),
    (2, "b"),
    (3, "c"),
    (4, "d"),
    (5, "e"),
    (6, "f"),
    (7, "g"),
    (8, "h"),
];

#[test]
fn two_generations_stay(rt: HostRuntime) -> Result<(), Fail> {
    let cache = filled(rt.alloc(), &EIGHT)?;
    let wanted = [
        (1, Some("a")),
        (4, Some("d")),
        (5, Some("e")),
        (8, Some("h")),
        (9, None),
    ];
    has(&rt, &cache, &wanted);
    Ok(())
}

#[test]
fn the_elder_generation_is_dropped(rt: HostRuntime) -> Result<(), Fail> {
    let mut cache = filled(rt.alloc(), &EIGHT)?;
    puts(rt.alloc(), &mut cache, 9, "i")?;
    let wanted = [
        (1, None),
        (4, None),
        (5, Some("e")),
        (8, Some("h")),
        (9, Some("i")),
    ];
    has(&rt, &cache, &wanted);
    Ok(())
}

#[test]
fn the_text_that_was_put_last_is_found(rt: HostRuntime) -> Result<(), Fail> {
    let mut cache = filled(rt.alloc(), &EIGHT)?;
    // (the young generation is full then: it becomes the elder one, which has page 8 too)
    puts(rt.alloc(), &mut cache, 8, "new")?;
    has(&rt, &cache, &[(8, Some("new")), (7, Some("g")), (1, None)]);
    Ok(())
}

#[test]
fn a_page_that_is_replaced_drops_no_other(rt: HostRuntime) -> Result<(), Fail> {
    let mut cache = filled(rt.alloc(), &[(1, "a"), (2, "b")])?;
    for _ in 0..100 {
        puts(rt.alloc(), &mut cache, 1, "old")?;
    }
    puts(rt.alloc(), &mut cache, 1, "new")?;
    has(&rt, &cache, &[(1, Some("new")), (2, Some("b"))]);
    Ok(())
}
