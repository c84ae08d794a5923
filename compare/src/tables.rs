//! Byte strings, valid, damaged and random: the number of the refusal and that of the first bad record, as the library leaves them and
//! through the wrapper.

use kusillaqe::raw::{self, Broken};
use second::{make, Refusal};

pub fn case(seed: u64) -> Result<(), String> {
    let table = make::case(seed);
    let refusal = second::refusal(&table);
    let (found, wanted) = (raw::check_numbers(&table), numbers(refusal));
    if found != wanted {
        return Err(format!("{} bytes: {found:?}, not {wanted:?}", table.len()));
    }
    let told = kusillaqe::check(&table)
        .err()
        .map(|refusal| (refusal.number(), refusal.record()));
    let wanted = refusal.map(|refusal| (refusal.number(), record(refusal)));
    if told != wanted {
        return Err(format!("{} bytes: the wrapper says {told:?}, not {wanted:?}", table.len()));
    }
    Ok(())
}

pub fn numbers(refusal: Option<Refusal>) -> Broken {
    Broken {
        rule: refusal.map_or(0, |refusal| refusal.number().into()),
        record: refusal.and_then(record).map_or(raw::NONE, u32::from),
    }
}

fn record(refusal: Refusal) -> Option<u16> {
    refusal.record().map(|record| record as u16)
}
