//! Numbers go up from 0, and a map keeps the last value of each.

use la_arena::{Arena, ArenaMap, Idx, RawIdx};

fn index<T>(number: u32) -> Idx<T> {
    Idx::from_raw(RawIdx::from_u32(number))
}

#[test]
fn an_arena_numbers_in_the_order_of_allocation() {
    let mut arena = Arena::new();
    let ids: Vec<_> = ["a", "b", "a"].into_iter().map(|item| arena.alloc(item)).collect();
    assert_eq!(ids.iter().map(|id| id.into_raw().into_u32()).collect::<Vec<_>>(), [0, 1, 2]);
    assert_eq!(ids[1], index(1));
    assert!(ids[0] < ids[2] && ids[0] != ids[2]);
    assert_eq!((arena[ids[2]], arena.len(), arena.iter().len()), ("a", 3, 3));
    assert_eq!(arena.iter().map(|(id, item)| (id.into_raw().into_u32(), *item)).collect::<Vec<_>>(), [(0, "a"), (1, "b"), (2, "a")]);
    arena[ids[1]] = "c";
    assert_eq!(arena[ids[1]], "c");
}

#[test]
fn a_map_has_gaps_and_keeps_the_last_value() {
    let mut map: ArenaMap<Idx<()>, &str> = ArenaMap::with_capacity(1);
    assert_eq!(map.insert(index(3), "three"), None);
    assert_eq!(map.insert(index(1), "one"), None);
    assert_eq!(map.insert(index(3), "again"), Some("three"));
    assert_eq!((map.get(index(3)), map.get(index(0)), map.get(index(9))), (Some(&"again"), None, None));
    assert_eq!(map.iter().map(|(id, value)| (id.into_raw().into_u32(), *value)).collect::<Vec<_>>(), [(1, "one"), (3, "again")]);
    assert_eq!(map.values().copied().collect::<Vec<_>>(), ["one", "again"]);
    let same: ArenaMap<Idx<()>, &str> = [(index(1), "one"), (index(3), "again")].into_iter().collect();
    assert_eq!(map, same);
}
