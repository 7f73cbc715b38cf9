//! Any bytes as a store: no call and no reader panics, and the calls refuse what is no store.

mod common;

use generate::{Preset, Rng};
use lang_ast::{ExprId, NameId, Pointer, ScopeId, Store, STORE_BYTES};

/// Numbers at and around what counts go to, and some that no count does.
fn numbers(store: &Store) -> Vec<u32> {
    let counts = [0, store.expr_count(), store.name_count(), store.scope_count(), 4_096, 16_384, 32_768, u32::MAX];
    counts.into_iter().flat_map(|count| [count.wrapping_sub(1), count, count.wrapping_add(1)]).collect()
}

/// Every reader, for everything that there is and for numbers that nothing has. How much could be read.
fn read_all(store: &Store) -> usize {
    let (exprs, names, scopes) = (store.exprs(), store.names(), store.scopes());
    let mut read = exprs.filter(|&expr| store.expr(expr).is_some()).count();
    read += names.filter(|&name| store.name(name).is_some()).count();
    read += scopes.filter(|&scope| store.scope(scope).is_some()).count();
    read += store.references().count() + store.diagnostics().count() + store.lost().count();
    read += usize::from(store.entry().is_some()) + (store.room_spent() + store.room_left()) as usize;
    read += format!("{store:?}").len();
    read += store.names().take(50).map(|name| format!("{:?}", store.name(name)).len()).sum::<usize>();
    read += store.exprs().take(50).map(|expr| format!("{:?}", store.expr(expr)).len()).sum::<usize>();
    for number in numbers(store) {
        read += read_number(store, number);
    }
    read
}

fn read_number(store: &Store, number: u32) -> usize {
    let (expr, name, scope) = (ExprId(number), NameId(number), ScopeId(number));
    let pointer = store.expr_pointer(expr).or(store.name(name).map(|name| name.pointer)).unwrap_or(Pointer::new(number, 0, number));
    let found = [
        store.expr(expr).is_some(),
        store.reference_text(expr).is_some(),
        store.expr_at(pointer).is_some(),
        store.name_at(pointer).is_some(),
        store.reference_at(pointer.from).is_some(),
        store.name_around(pointer.from).is_some(),
        store.scope(scope).is_some(),
        store.scope_of(expr).is_some(),
        store.scope_holding(name).is_some(),
        store.kept_answer(expr).is_some(),
        store.kept_references(name).is_some(),
    ];
    found.iter().filter(|&&found| found).count() + store.withs_around(expr).len() + store.scopes_around(scope).count()
}

/// All calls that do not load.
fn call_all(store: &mut Store, number: u32) -> bool {
    let asked = [store.ask_reference(ExprId(number)).is_ok(), store.ask_name(NameId(number)).is_ok(), store.check().is_ok()];
    let changed = [store.change_reference(ExprId(number), b"any").is_ok(), store.change_name(NameId(number), b"any").is_ok()];
    asked.contains(&true) || changed.contains(&true)
}

fn random_bytes(rng: &mut Rng, length: usize) -> Vec<u8> {
    let mut bytes: Vec<u8> = (0..length.div_ceil(8)).flat_map(|_| rng.draw().to_le_bytes()).collect();
    bytes.truncate(length);
    bytes
}

#[test]
fn bytes_of_one_value() {
    for byte in [0, 1, 2, 16, 127, 255] {
        let mut store = Store::from_bytes(vec![byte; STORE_BYTES]);
        read_all(&store);
        assert!(!call_all(&mut store, 0), "bytes of {byte}");
    }
}

#[test]
fn random_words_below_an_end() {
    let rng = &mut Rng::new(5);
    for end in [2, 30, 200, 4_096, 40_000, usize::MAX] {
        let words = (0..STORE_BYTES / 4).map(|_| rng.below(end) as u32);
        let mut store = Store::from_bytes(words.flat_map(u32::to_le_bytes).collect());
        read_all(&store);
        assert!(!call_all(&mut store, 0), "words below {end}");
    }
}

#[test]
fn short_and_long_bytes() {
    let rng = &mut Rng::new(6);
    let sheet = common::sheet(r#"21(11(28(18"x"),18"x"))"#);
    let loaded = Store::load(&sheet).expect("a sheet").into_bytes();
    for length in [0, 1, 3, 4, 63, 64, 65, 327_764, 524_372, 2_310_229, 2_506_848, 3_162_240, 3_162_244, STORE_BYTES - 1] {
        for bytes in [random_bytes(rng, length), loaded.iter().take(length).copied().collect()] {
            let mut store = Store::from_bytes(bytes);
            read_all(&store);
            assert!(!call_all(&mut store, 0), "{length} bytes");
            assert_eq!(store.reload(&sheet).map_err(|refusal| refusal.number), Err(21));
        }
    }
    // Bytes past a store mean nothing and are left alone.
    let mut store = Store::from_bytes([loaded, vec![7; 100]].concat());
    assert_eq!(store.check(), Ok(()));
    assert_eq!(store.change_name(NameId(0), b"y"), Ok(vec![ExprId(0)]));
    assert!(store.as_bytes().ends_with(&[7; 100]));
    assert_eq!(store.name(NameId(0)).map(|name| name.text), Some(b"y".as_slice()));
}

/// Where the tables of docs/STORE.md that are in use begin, and the header.
const TABLES: [usize; 14] =
    [0, 64, 327_764, 524_372, 917_588, 950_356, 999_508, 1_917_012, 2_310_228, 2_441_300, 2_490_464, 2_506_848, 2_523_236, 3_162_240];

/// Loaded stores with some words replaced: what the calls then accept can be read, and nothing panics.
#[test]
fn damaged_stores() {
    let rng = &mut Rng::new(7);
    for seed in 0..60 {
        let preset = [Preset::Small, Preset::Keys, Preset::Medium][seed as usize % 3];
        let loaded = Store::load(&sheet::write(&preset.sheet(seed))).expect("a sheet").into_bytes();
        for _ in 0..4 {
            let mut bytes = loaded.clone();
            for _ in 0..rng.between(1, 4) {
                let at = rng.pick(&TABLES) + 4 * rng.below(60);
                let any = rng.draw() as u32;
                let word = rng.pick(&[0, 1, 2, 6, 21, 24, 4_096, 16_384, 32_768, u32::MAX, any]);
                bytes[at..at + 4].copy_from_slice(&word.to_le_bytes());
            }
            let mut store = Store::from_bytes(bytes);
            read_all(&store);
            if store.check().is_ok() {
                readable(&store);
            }
            call_all(&mut store, rng.below(20) as u32);
        }
    }
}

/// Where the table of names and the texts begin.
const NAMES: usize = 917_588;
const TEXTS: usize = 3_162_240;

/// Texts that do not lie among those in use read as the empty one, however far off they are.
#[test]
fn texts_outside_those_in_use() {
    let loaded = common::store(r#"21(11(28(18"x"),18"x"))"#).into_bytes();
    let number = u32::from_le_bytes([0, 1, 2, 3].map(|i| loaded[NAMES + i])) as usize;
    let read = |at: usize, word: u32| {
        let mut bytes = loaded.clone();
        bytes[at..at + 4].copy_from_slice(&word.to_le_bytes());
        let store = Store::from_bytes(bytes);
        assert_eq!(store.name_count(), 1);
        (store.name(NameId(0)).map(|name| name.text.to_vec()), store.check().map_err(|refusal| refusal.number))
    };
    assert_eq!(read(TEXTS + number, 1), (Some(b"x".to_vec()), Ok(())));
    assert_eq!(read(NAMES, u32::MAX), (Some(Vec::new()), Ok(())));
    for length in [700_000, i32::MAX as u32, u32::MAX - 3, u32::MAX] {
        assert_eq!(read(TEXTS + number, length), (Some(Vec::new()), Err(22)), "of {length} bytes");
    }
    for number in [700_000, 786_431, 786_432, u32::MAX - 4, u32::MAX - 1] {
        assert_eq!(read(NAMES, number), (Some(Vec::new()), Err(22)), "at {number}");
    }
}

/// Of a sound store everything can be read, and what is kept is what the calls say.
fn readable(store: &Store) {
    assert!(store.entry().is_some());
    for expr in store.exprs() {
        assert!(store.expr(expr).is_some(), "{expr}");
        assert_eq!(store.ask_reference(expr).ok(), store.kept_answer(expr), "{expr}");
    }
    for name in store.names() {
        assert!(store.name(name).is_some(), "{name}");
        assert_eq!(store.ask_name(name).ok(), store.kept_references(name), "{name}");
    }
    assert!(store.scopes().all(|scope| store.scope(scope).is_some()));
}
