//! The two checkers of refusals on damaged sheets: that they say the same, and how often each number came.

use std::collections::BTreeMap;

/// A damaged sheet for each of `count` seeds from `seed` on. How many are accepted and refused with each number, or the
/// first difference.
pub fn refusals(seed: u64, count: u64) -> Result<String, String> {
    let mut numbers: BTreeMap<u32, u64> = BTreeMap::new();
    for seed in (0..count).map(|number| seed.wrapping_add(number)) {
        let (bytes, what) = generate::damaged(seed);
        let forward = sheet::check::check(&bytes);
        let least = judge::judge(&bytes).map_err(|judgement| judgement.refusal);
        if forward != least {
            return Err(format!("damaged {seed}, {what}: {:?} read forward, and the least is {:?}", forward.err(), least.err()));
        }
        *numbers.entry(forward.map_or_else(|refusal| refusal.number, |_| 0)).or_default() += 1;
    }
    let told = numbers.iter().map(|(number, count)| match number {
        0 => format!("accepted: {count}\n"),
        number => format!("refused {number}: {count}\n"),
    });
    Ok(told.collect())
}
