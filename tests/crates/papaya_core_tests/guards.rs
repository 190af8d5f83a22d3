// Queries and guards, through their bounds and at types.
use crate::expect::is;
use papaya_testing::laws::{hashes_as, matches_equals, number_by_guards};
use papaya_words_keys::guard::{Collector, Equivalent, Guard, TextKey};
use std::alloc::Global;
use std::test::Fail;

/// Checks both laws for each pair of keys, and which keys the query matches.
#[test]
fn text_key_matches_the_equal_text(rt: HostRuntime) -> Result<(), Fail> {
    let texts = ["", "red", "re", "redd", "réd", "Red"];
    for query in texts {
        for text in texts {
            let key = text.to_string(rt.alloc())?;
            let matches = TextKey(query).equivalent(&key);
            assert!(rt; matches == (query == text), "{query} at {text}");
            assert!(rt; hashes_as(&TextKey(query), &key));
        }
    }
    Ok(())
}

#[test]
fn keys_match_their_equals(rt: HostRuntime) -> Result<(), Fail> {
    let red = "red".to_string(rt.alloc())?;
    let blue = "blue".to_string(rt.alloc())?;
    assert!(rt; matches_equals(&red, &red, &blue));
    assert!(rt; matches_equals(&TextKey("red"), &red, &blue));
    assert!(rt; matches_equals(&(7u64, 'a'), &(7, 'a'), &(7, 'b')));
    assert!(rt; 7u64.equivalent(&7));
    assert!(rt; !7u64.equivalent(&8));
    assert!(rt; hashes_as(&7u64, &7));
    assert!(rt; hashes_as(&(7u64, 'a'), &(7, 'a')));
    Ok(())
}

#[test]
fn guards_tell_their_collector(rt: HostRuntime) -> Result<(), Fail> {
    for number in [0, 7, u64::MAX] {
        let collector = Collector::new(number);
        is(&rt, collector.number(), number);
        is(&rt, number_by_guards(&collector), (number, number));
    }
    Ok(())
}

#[test]
fn guards_of_one_caller_have_their_own_numbers(rt: HostRuntime) -> Result<(), Fail> {
    let collector = Collector::new(0);
    let first = collector.enter();
    let second = collector.enter();
    let third = collector.enter_owned();
    assert_ne!(rt; first.number(), second.number());
    assert_ne!(rt; second.number(), third.number());
    assert_ne!(rt; first.number(), third.number());
    is(&rt, first.number(), first.number());
    Ok(())
}
