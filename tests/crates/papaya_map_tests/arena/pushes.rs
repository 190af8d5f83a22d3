// The numbers of pushes, and the values at them. If `tests/refused.py` refuses a request for
// memory, a push here meets it.
ghost use Rattle.std.specs.Prelude.{◌≡◌, IfSome};
ghost use Rattle.boxcar.specs.Table.{Shows};

use crate::expect::is;
use papaya_map_arena::arena::Arena;
use papaya_map_arena::token::{Pushed, token, witness};
use std::sync::Wait;
use std::test::Fail;

/// The distance between the numbers of two rows.
const ROW_SPAN: usize = 0x400_0000_0000;

/// Pushes a value by the first lane, and tries once more if memory ran out.
fn push<R: Wait>(rt: &R, log: &Arena<u64>, value: u64) -> Option<Pushed<u64>>
    ensures { IfSome result (λ p. Shows log.now p × (p.value ≡ value)) }
{
    match log.push_shown(rt, 0, value) {
        Ok(pushed) => Some(pushed),
        Err(back) => log.push_shown(rt, 0, back).ok(),
    }
}

/// Pushes a value `times` times by the first lane. Returns whether the numbers are those from
/// `first` and the value is read at each.
fn pushes_from<R: Wait>(rt: &R, log: &Arena<u64>, value: u64, first: usize, times: usize) -> bool {
    for place in 0..times {
        let Some(pushed) = push(rt, log, value) else {
            return false;
        };
        if pushed.index() != first.wrapping_add(place) || *log.value(&pushed) != value {
            return false;
        }
    }
    true
}

/// Pushes a value by a lane if a row is made for it. Returns the number and what is read there, or
/// the value.
fn tried(log: &Arena<u64>, lane: u64, value: u64) -> Result<(usize, u64), u64> {
    match log.try_push(lane, value) {
        Ok(pushed) => Ok((pushed.index(), *log.value(&pushed))),
        Err(back) => Err(back),
    }
}

#[test]
fn rows_are_as_long_as_all_before_them(rt: HostRuntime) -> Result<(), Fail> {
    let log = Arena::new(rt.alloc(), 0)?;
    is(&rt, pushes_from(&rt, &log, 1, 0, 32), true);
    is(&rt, pushes_from(&rt, &log, 2, ROW_SPAN, 32), true);
    is(&rt, pushes_from(&rt, &log, 3, 2 * ROW_SPAN, 64), true);
    is(&rt, pushes_from(&rt, &log, 4, 3 * ROW_SPAN, 128), true);
    is(&rt, pushes_from(&rt, &log, 5, 4 * ROW_SPAN, 1), true);
    Ok(())
}

#[test]
fn the_first_row_has_the_capacity(rt: HostRuntime) -> Result<(), Fail> {
    let log = Arena::new(rt.alloc(), 100)?;
    is(&rt, pushes_from(&rt, &log, 1, 0, 128), true);
    is(&rt, pushes_from(&rt, &log, 2, ROW_SPAN, 128), true);
    is(&rt, pushes_from(&rt, &log, 3, 2 * ROW_SPAN, 1), true);
    Ok(())
}

#[test]
fn a_value_stays_while_others_come(rt: HostRuntime) -> Result<(), Fail> {
    let log = Arena::new(rt.alloc(), 0)?;
    let first = push(&rt, &log, 7).expect(&rt, "memory");
    is(&rt, pushes_from(&rt, &log, 1, 1, 31), true);
    let second = push(&rt, &log, 8).expect(&rt, "memory");
    is(&rt, pushes_from(&rt, &log, 2, ROW_SPAN + 1, 31), true);
    is(&rt, (*log.value(&first), *log.value(&second)), (7, 8));
    let again = token(witness(&first), first.index());
    is(&rt, *log.value(&again), 7);
    Ok(())
}

#[test]
fn a_push_that_makes_no_row_needs_one(rt: HostRuntime) -> Result<(), Fail> {
    let log = Arena::new(rt.alloc(), 0)?;
    is(&rt, tried(&log, 0, 5), Err(5));
    is(&rt, pushes_from(&rt, &log, 1, 0, 31), true);
    is(&rt, tried(&log, 0, 6), Ok((31, 6)));
    is(&rt, tried(&log, 0, 7), Err(7));
    is(&rt, pushes_from(&rt, &log, 2, ROW_SPAN, 1), true);
    is(&rt, tried(&log, 0, 8), Ok((ROW_SPAN + 1, 8)));
    Ok(())
}

#[test]
fn each_lane_has_a_part_of_a_row(rt: HostRuntime) -> Result<(), Fail> {
    let log = Arena::new(rt.alloc(), 0)?;
    is(&rt, pushes_from(&rt, &log, 1, 0, 1), true);
    is(&rt, tried(&log, 1, 2), Ok((4, 2)));
    is(&rt, tried(&log, 7, 3), Ok((28, 3)));
    is(&rt, tried(&log, 8, 4), Ok((1, 4)));
    is(&rt, tried(&log, u64::MAX, 5), Ok((29, 5)));
    Ok(())
}

#[test]
fn a_lane_with_no_slot_takes_one_of_another(rt: HostRuntime) -> Result<(), Fail> {
    let log = Arena::new(rt.alloc(), 0)?;
    is(&rt, pushes_from(&rt, &log, 1, 0, 3), true);
    is(&rt, tried(&log, 0, 2), Ok((3, 2)));
    is(&rt, tried(&log, 0, 3), Ok((4, 3)));
    is(&rt, tried(&log, 1, 4), Ok((5, 4)));
    is(&rt, tried(&log, 0, 5), Ok((6, 5)));
    is(&rt, tried(&log, 7, 6), Ok((28, 6)));
    Ok(())
}
