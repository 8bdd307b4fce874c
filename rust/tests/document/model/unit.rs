//! W-208, 'One unit, several surveyors'.
use super::row;
use super::run::{advance as advance_run, impossible, store_size};
use super::tree::size;
use mastdock::{Made, Place, Run, Unit};

/// A refusal's number with the run that it was found in, or 0 if that is none.
#[derive(Clone, Copy, Debug, PartialEq, Eq)]
pub struct Refused {
    pub number: u64,
    pub run: u64,
}

/// 'runs are named by number from 1'.
fn named(unit: &Unit, name: u64) -> &Run {
    &unit.runs[name as usize - 1]
}

/// How many labels a run has still to make.
pub fn remaining(run: &Run) -> u64 {
    size(run.depth) - run.made
}

/// 'not 1 to 8 runs', or a run not among them.
fn among(unit: &Unit, name: u64) -> bool {
    (1..=8).contains(&unit.count) && (1..=unit.count).contains(&name)
}

/// 'each run in order as when continued', up to one of them, 'their stores end to end in one lent slice' of this length: where each store
/// lies.
fn stores(unit: &Unit, last: u64, len: usize) -> Result<Vec<Place>, Refused> {
    let (mut places, mut offset) = (vec![], 0);
    for name in 1..=last {
        let Run { edition, depth, memory, made, .. } = *named(unit, name);
        row(&[(4, &|| impossible(edition, depth, memory, made)), (3, &|| len - offset < store_size(memory))])
            .map_err(|number| Refused { number, run: name })?;
        places.push(Place { offset, length: store_size(memory) });
        offset += store_size(memory);
    }
    Ok(places)
}

/// '21, not 1 to 8 runs, or the run named as served last not among them; checked first, then each run in order as when continued'.
pub fn checked(unit: &Unit, len: usize) -> Result<Vec<Place>, Refused> {
    row(&[(21, &|| !among(unit, unit.last))]).map_err(|number| Refused { number, run: 0 })?;
    stores(unit, unit.count, len)
}

/// 'in turn, beginning after the run named as served last', 'finished runs are passed over': none where all are finished.
fn next(unit: &Unit) -> Option<u64> {
    let round = (unit.last + 1..=unit.count).chain(1..=unit.last);
    round.into_iter().find(|name| remaining(named(unit, *name)) > 0)
}

/// 'A call's budget is spent one label at a time'; 'the call hands back that name as it now is'; 'one refusal changes nothing in any'.
pub fn advance(unit: &mut Unit, budget: u64, store: &mut [u8]) -> Result<Made, Refused> {
    let places = checked(unit, store.len())?;
    let mut made = Made::default();
    while made.labels < budget {
        let Some(name) = next(unit) else { break };
        let Place { offset, length } = places[name as usize - 1];
        let one = advance_run(&mut unit.runs[name as usize - 1], 1, &mut store[offset..][..length]).unwrap();
        made = Made { labels: made.labels + one.labels, blocks: made.blocks + one.blocks };
        unit.last = name;
    }
    Ok(made)
}

/// Where a run's store lies in the slice: nowhere if it is not among 1 to 8 runs, or it or one before it would be refused.
pub fn store_place(unit: &Unit, name: u64, len: usize) -> Place {
    let places = if among(unit, name) { stores(unit, name, len).ok() } else { None };
    places.and_then(|places| places.last().copied()).unwrap_or(Place { offset: 0, length: 0 })
}
