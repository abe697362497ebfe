//! The four calls on curves, by ticks: a plain curve is taken apart into the list of the ticks it covers, and the ticks of a
//! result are put together into windows again.

/// No window ends later.
pub const LAST_END: u32 = 1_000_000;

/// The numbers given on refusal.
pub const NOT_PLAIN: u32 = 10;
pub const NO_ROOM: u32 = 11;
pub const ZERO: u32 = 12;

/// What fitting makes of a demand and a supply: three plain curves.
pub struct Fitted {
    pub supply_left: Vec<u32>,
    pub served: Vec<u32>,
    pub demand_left: Vec<u32>,
}

/// Adds two curves into a buffer; gives how many of its numbers are the result.
pub fn add(a: &[u32], b: &[u32], room: &mut [u32]) -> Result<usize, u32> {
    let result = added(a, b)?;
    has_room(&result, room)?;
    Ok(store(&result, room))
}

/// Cuts a curve at the multiples of a period.
pub fn cut(period: u32, a: &[u32], room: &mut [u32]) -> Result<usize, u32> {
    let result = parted(period, a)?;
    has_room(&result, room)?;
    Ok(store(&result, room))
}

/// Fits a demand into a supply; the rooms are for the supply left, the served part and the demand left.
pub fn fit(demand: &[u32], supply: &[u32], rooms: [&mut [u32]; 3]) -> Result<[usize; 3], u32> {
    let result = fitted(demand, supply)?;
    let [left, served, unserved] = rooms;
    has_room(&result.supply_left, left)?;
    has_room(&result.served, served)?;
    has_room(&result.demand_left, unserved)?;
    Ok([store(&result.supply_left, left), store(&result.served, served), store(&result.demand_left, unserved)])
}

/// The instant at which a curve has given an amount of ticks, `None` if it has fewer.
pub fn time_to_provide(amount: u32, a: &[u32]) -> Result<Option<u32>, u32> {
    if amount == 0 {
        return Err(ZERO);
    }
    let ticks = ticks_of(a)?;
    let last = amount as usize - 1;
    // the wrong build pushes an exact fit into the next window
    if cfg!(feature = "wrong") {
        return Ok(ticks.get(last + 1).copied());
    }
    Ok(ticks.get(last).map(|tick| tick + 1))
}

/// The sum of two curves: the units of work are done in the order in which they come, one a tick, each as soon as it can be.
pub fn added(a: &[u32], b: &[u32]) -> Result<Vec<u32>, u32> {
    let mut brought = ticks_of(a)?;
    brought.extend(ticks_of(b)?);
    brought.sort_unstable();
    let mut done: Vec<u32> = Vec::with_capacity(brought.len());
    for tick in brought {
        let free_from = done.last().map_or(0, |last| last + 1);
        done.push(tick.max(free_from));
    }
    let result = curve_of(&done);
    match result.last() {
        Some(&end) if end > LAST_END => Err(NO_ROOM),
        _ => Ok(result),
    }
}

/// A curve with its windows parted at every multiple of the period strictly inside them.
pub fn parted(period: u32, a: &[u32]) -> Result<Vec<u32>, u32> {
    if period == 0 {
        return Err(ZERO);
    }
    let ticks = ticks_of(a)?;
    Ok(windows_of(&ticks, |tick| tick % period == 0))
}

/// A demand fitted into a supply: the units of demand wait in a queue, and each tick of supply serves the one that waits longest.
pub fn fitted(demand: &[u32], supply: &[u32]) -> Result<Fitted, u32> {
    let demand = ticks_of(demand)?;
    let supply = ticks_of(supply)?;
    let mut left = Vec::new();
    let mut served = Vec::new();
    // the units before this index are served
    let mut next = 0;
    for tick in supply {
        let waits = next < demand.len() && demand[next] <= tick;
        if waits {
            served.push(tick);
            next += 1;
        } else {
            left.push(tick);
        }
    }
    Ok(Fitted { supply_left: curve_of(&left), served: curve_of(&served), demand_left: curve_of(&demand[next..]) })
}

/// The ticks that a curve covers, in order, if the curve is plain.
fn ticks_of(curve: &[u32]) -> Result<Vec<u32>, u32> {
    if !is_plain(curve) {
        return Err(NOT_PLAIN);
    }
    Ok(curve.chunks(2).flat_map(|window| window[0]..window[1]).collect())
}

/// Pairs; each start below its end, each end below the next start: so the numbers go up; the last end is in the limit.
fn is_plain(curve: &[u32]) -> bool {
    let goes_up = curve.windows(2).all(|pair| pair[0] < pair[1]);
    let in_limit = curve.iter().all(|&number| number <= LAST_END);
    curve.len().is_multiple_of(2) && goes_up && in_limit
}

/// The plain curve that covers these ticks, which go up.
pub fn curve_of(ticks: &[u32]) -> Vec<u32> {
    windows_of(ticks, |_| false)
}

/// The windows that cover these ticks, which go up; a window also begins where `begins` says so.
fn windows_of(ticks: &[u32], begins: impl Fn(u32) -> bool) -> Vec<u32> {
    let mut curve: Vec<u32> = Vec::new();
    for &tick in ticks {
        match curve.last_mut() {
            Some(end) if *end == tick && !begins(tick) => *end = tick + 1,
            _ => curve.extend([tick, tick + 1]),
        }
    }
    curve
}

fn has_room(result: &[u32], room: &[u32]) -> Result<(), u32> {
    if result.len() > room.len() {
        return Err(NO_ROOM);
    }
    Ok(())
}

/// Puts a result at the front of a room and leaves the rest as it is.
fn store(result: &[u32], room: &mut [u32]) -> usize {
    room[..result.len()].copy_from_slice(result);
    result.len()
}
