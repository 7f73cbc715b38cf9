//! The map answers with the last value, its log with all of them.

use rustc_hash::FxHashMap;

#[test]
fn the_log_keeps_what_the_map_forgets() {
    let mut map = FxHashMap::default();
    assert!(map.is_empty());
    assert_eq!(map.insert("x", 0), None);
    assert_eq!(map.insert("y", 1), None);
    assert_eq!(map.insert("x", 2), Some(0));
    assert_eq!((map.get(&"x"), map.get(&"z"), map.len()), (Some(&2), None, 2));
    assert_eq!(map.log(), [("x", 0), ("y", 1), ("x", 2)]);
    let mut pairs: Vec<_> = map.iter().collect();
    pairs.sort();
    assert_eq!(pairs, [(&"x", &2), (&"y", &1)]);
}

#[test]
fn equality_is_that_of_the_map() {
    let (mut one, mut other) = (FxHashMap::default(), FxHashMap::default());
    one.insert("x", 0);
    one.insert("x", 1);
    other.insert("x", 1);
    assert_eq!(one, other);
    assert_ne!(one.log(), other.log());
    other.insert("x", 2);
    assert_ne!(one, other);
}

#[test]
fn an_entry_is_held_but_not_logged() {
    let mut map: FxHashMap<&str, Vec<u8>> = FxHashMap::default();
    map.entry("x").or_default().push(1);
    map.entry("x").or_default().push(2);
    assert_eq!(map.get(&"x"), Some(&vec![1, 2]));
    assert!(map.log().is_empty());
}
