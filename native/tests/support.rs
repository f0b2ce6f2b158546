//! The parts of Rattle's standard library over Rust's: what each call leaves, also if a deque is stored in two parts.

use mortarpink::support::alloc::{AllocError, Global};
use mortarpink::support::collections::{DequeWithin, VecDeque};
use mortarpink::support::iter::CollectWithin;
use mortarpink::support::vec::VecWithin;
use mortarpink::{TryClone, support::ops};

const TOO_MANY: usize = usize::MAX / 2;

/// A deque of 1, 2, 3 and 4 that is stored in two parts.
fn wrapped() -> VecDeque<u64> {
    let mut deque: VecDeque<u64> = VecDeque::with_capacity(4);
    while deque.len() < deque.capacity() {
        deque.push_back(0);
    }
    deque.drain(..2);
    deque.push_back(3);
    deque.push_back(4);
    deque.drain(..deque.len() - 2);
    deque.push_front(2);
    deque.push_front(1);
    assert!(!deque.as_slices().1.is_empty(), "the deque is in one part");
    deque
}

#[test]
fn vectors_are_made_with_what_they_are_given() {
    assert!(Vec::<u8>::new_within(Global).is_empty());
    let vec = Vec::<u64>::with_capacity_within(Global, 5).unwrap();
    assert!(vec.is_empty() && vec.capacity() >= 5);
    assert_eq!(Vec::from_slice_within(Global, &[1, 2, 3]), Ok(vec![1, 2, 3]));
    assert_eq!(*vec![1].its_allocator(), Global);
}

#[test]
fn vectors_grow_at_the_end() {
    let mut vec = Vec::new();
    for value in 0..100 {
        assert_eq!(vec.try_push(value), Ok(()));
    }
    assert_eq!(vec.try_extend_from_slice(&[100, 101]), Ok(()));
    assert_eq!(vec, (0..102).collect::<Vec<_>>());
    assert_eq!(vec.try_resize(104, 7), Ok(()));
    assert_eq!(vec[101..], [101, 7, 7]);
    assert_eq!(vec.try_resize(2, 7), Ok(()));
    assert_eq!(vec, [0, 1]);
    vec.try_reserve(1).unwrap();
    vec.push_reserved(9);
    assert_eq!(vec, [0, 1, 9]);
}

#[test]
fn what_is_too_large_is_an_error_and_changes_nothing() {
    assert_eq!(Vec::<u64>::with_capacity_within(Global, TOO_MANY), Err(AllocError));
    assert_eq!(VecDeque::<u64>::with_capacity_within(Global, TOO_MANY), Err(AllocError));
    let mut vec = vec![1, 2];
    assert_eq!(vec.try_resize(TOO_MANY, 7), Err(AllocError));
    assert_eq!(vec, [1, 2]);
    assert_eq!(AllocError::from(vec.try_reserve(TOO_MANY).unwrap_err()), AllocError);
    assert_eq!((0..10).collect_within::<Vec<_>>(Global), Ok((0..10).collect()));
}

#[test]
fn deques_grow_at_both_ends() {
    let mut deque = VecDeque::new_within(Global);
    for value in 0..100 {
        assert_eq!(deque.try_push_back(value), Ok(()));
    }
    deque.try_reserve(2).unwrap();
    deque.push_back_reserved(100);
    deque.push_front_reserved(-1);
    assert_eq!(deque, (-1..101).collect::<Vec<_>>());
    let empty = VecDeque::<u64>::with_capacity_within(Global, 5).unwrap();
    assert!(empty.is_empty() && empty.capacity() >= 5);
    assert_eq!(*empty.its_allocator(), Global);
}

#[test]
fn copies_are_equal() {
    assert_eq!(wrapped(), [1, 2, 3, 4]);
    assert_eq!(wrapped().try_clone(), Ok(wrapped()));
    assert_eq!(vec![vec![1u8, 2], vec![]].try_clone(), Ok(vec![vec![1, 2], vec![]]));
    assert_eq!([[1u8, 2], [3, 4]].try_clone(), Ok([[1, 2], [3, 4]]));
    assert_eq!((1u64, true).try_clone(), Ok((1, true)));
    assert_eq!((Some(vec![1u8]), None::<u64>).try_clone(), Ok((Some(vec![1]), None)));
}

#[test]
fn operators_return_what_they_make() {
    use mortarpink::bitmap::BitMap;

    let (left, right) = (BitMap::<1>::from([true, true, false]), BitMap::<1>::from([true, false, false]));
    assert_eq!(ops::BitAnd::bitand(&left, &right), Ok(BitMap::from([true, false, false])));
    assert_eq!(ops::BitOr::bitor(&left, &right), Ok(BitMap::from([true, true, false])));
    assert_eq!(ops::BitXor::bitxor(&left, &right), Ok(BitMap::from([false, true, false])));
    assert_eq!(ops::Sub::sub(&left, &right), Ok(BitMap::from([false, true, false])));
}
