//! The form check: the tests of both files in the order in which crates/network and crates/files
//! take them.

const NO_PARENT: u16 = 65_535;
const MOST_BYTES: usize = 4_194_304;
const MOST_COUNT: usize = 4_095;
const MOST_FIGURE: u32 = 67_042_305;

/// The number that a file is refused by, as an error.
type Tested = Result<(), u32>;

/// Junctions' depths, or where their lists start.
type Table = [u32; 1_024];

/// With entries read at computed places of the labels, as the proved function reads them.
#[inline(never)]
pub fn by_index(net: &[u8], labels: &[u8]) -> u32 {
    number_of(form(net, labels, entries_by_index))
}

/// With entries read from chunks of 8 bytes, which leaves rustc no bounds to check.
#[inline(never)]
pub fn by_chunks(net: &[u8], labels: &[u8]) -> u32 {
    number_of(form(net, labels, entries_by_chunks))
}

/// What it costs to look at each byte at all.
#[inline(never)]
pub fn sum_of_bytes(net: &[u8], labels: &[u8]) -> u64 {
    let bytes = net.iter().chain(labels);
    bytes.map(|&byte| u64::from(byte)).sum()
}

fn number_of(tested: Tested) -> u32 {
    tested.err().unwrap_or(0)
}

fn ask(holds: bool, number: u32) -> Tested {
    if holds { Ok(()) } else { Err(number) }
}

fn u16_at(bytes: &[u8], at: usize) -> u16 {
    u16::from_le_bytes([bytes[at], bytes[at + 1]])
}

fn u32_at(bytes: &[u8], at: usize) -> u32 {
    u32::from_le_bytes(bytes[at..at + 4].try_into().expect("four bytes"))
}

fn marked(mark: &[u8; 3], bytes: &[u8]) -> bool {
    bytes.starts_with(mark) && bytes[5] == 0
}

fn form(
    net: &[u8],
    labels: &[u8],
    entries: impl Fn(&[u8], usize, usize) -> Tested + Copy,
) -> Tested {
    network(net)?;
    label_header(labels)?;
    let same = u16_at(labels, 6) == u16_at(net, 6) && u32_at(labels, 12) == u32_at(net, 12);
    ask(same, 14)?;
    let junctions = usize::from(u16_at(labels, 6));
    ask(labels.len() >= 16 + 2 * junctions, 11)?;
    let mut depths = [0; 1_024];
    fill_depths(labels, junctions, &mut depths)?;
    roads_join(net, labels, &depths)?;
    let mut starts = [0; 1_024];
    scan_lists(labels, junctions, &depths, &mut starts, entries)
}

fn network(net: &[u8]) -> Tested {
    ask(net.len() >= 16, 1)?;
    ask(marked(b"TRN", net), 2)?;
    ask(u16_at(net, 3) == 1, 3)?;
    let roads = u32_at(net, 8) as usize;
    let sizes_fit = (1..=1_024).contains(&u16_at(net, 6)) && roads <= 4_096;
    ask(sizes_fit, 4)?;
    ask(net.len() == 16 + 8 * roads, 1)?;
    (0..roads).try_for_each(|road| record(net, road))
}

fn record(net: &[u8], road: usize) -> Tested {
    let at = 16 + 8 * road;
    let (low, high) = (u16_at(net, at), u16_at(net, at + 2));
    ask(low < high && high < u16_at(net, 6), 5)?;
    if road > 0 {
        let before = (u16_at(net, at - 8), u16_at(net, at - 6));
        ask(before < (low, high), 5)?;
    }
    ask(u16_at(net, at + 4) >= 1 && u16_at(net, at + 6) >= 1, 6)
}

fn label_header(labels: &[u8]) -> Tested {
    ask((16..=MOST_BYTES).contains(&labels.len()), 11)?;
    ask(marked(b"TLB", labels), 12)?;
    ask(u16_at(labels, 3) == 1, 13)
}

fn parent_of(labels: &[u8], junction: usize) -> u16 {
    u16_at(labels, 16 + 2 * junction)
}

fn fill_depths(labels: &[u8], junctions: usize, depths: &mut Table) -> Tested {
    for junction in 0..junctions {
        let parent = parent_of(labels, junction);
        ask(usize::from(parent) < junctions || parent == NO_PARENT, 15)?;
    }
    for (junction, depth) in depths.iter_mut().enumerate().take(junctions) {
        *depth = steps_up(labels, junctions as u32, junction);
        ask(*depth < junctions as u32, 15)?;
    }
    Ok(())
}

/// As many steps as there are junctions have met one twice.
fn steps_up(labels: &[u8], junctions: u32, from: usize) -> u32 {
    let mut junction = from;
    for steps in 0..junctions {
        let parent = parent_of(labels, junction);
        if parent == NO_PARENT {
            return steps;
        }
        junction = usize::from(parent);
    }
    junctions
}

fn roads_join(net: &[u8], labels: &[u8], depths: &Table) -> Tested {
    for record in net[16..].chunks_exact(8) {
        let low = usize::from(u16_at(record, 0));
        let high = usize::from(u16_at(record, 2));
        let joins =
            is_ancestor(labels, depths, low, high) || is_ancestor(labels, depths, high, low);
        ask(joins, 16)?;
    }
    Ok(())
}

fn is_ancestor(labels: &[u8], depths: &Table, above: usize, below: usize) -> bool {
    let Some(steps) = depths[below].checked_sub(depths[above]) else {
        return false;
    };
    let climb = |junction, _| usize::from(parent_of(labels, junction));
    (0..steps).fold(below, climb) == above
}

fn scan_lists(
    labels: &[u8],
    junctions: usize,
    depths: &Table,
    starts: &mut Table,
    entries: impl Fn(&[u8], usize, usize) -> Tested + Copy,
) -> Tested {
    let mut at = 16 + 2 * junctions;
    let mut total = 0;
    for (start, &depth) in starts.iter_mut().zip(depths).take(junctions) {
        *start = at as u32;
        for _ in 0..depth {
            let count = list(labels, at, entries)?;
            total += count;
            at += 2 + 8 * count;
        }
    }
    ask(at == labels.len(), 11)?;
    ask(total == u32_at(labels, 8) as usize, 17)
}

/// How many entries the list at a byte has.
fn list(
    labels: &[u8],
    at: usize,
    entries: impl Fn(&[u8], usize, usize) -> Tested,
) -> Result<usize, u32> {
    ask(labels.len() >= at + 2, 11)?;
    let count = usize::from(u16_at(labels, at));
    ask(count <= MOST_COUNT, 17)?;
    let whole = count.min((labels.len() - at - 2) / 8);
    entries(labels, at, whole)?;
    if whole < count {
        cut_entry(labels, at, whole)?;
    }
    Ok(count)
}

/// 17 if the time of an entry that is cut off stands whole and breaks a rule, else 11.
fn cut_entry(labels: &[u8], at: usize, whole: usize) -> Tested {
    let place = at + 2 + 8 * whole;
    ask(labels.len() >= place + 4, 11)?;
    let ceiling = match whole {
        0 => MOST_FIGURE + 1,
        _ => u32_at(labels, place - 8),
    };
    let time = u32_at(labels, place);
    ask(time_fits(ceiling, time), 17)?;
    Err(11)
}

fn time_fits(ceiling: u32, time: u32) -> bool {
    (1..=MOST_FIGURE).contains(&time) && time < ceiling
}

fn energy_fits(floor: u32, energy: u32) -> bool {
    energy <= MOST_FIGURE && floor <= energy
}

fn entries_by_index(labels: &[u8], at: usize, whole: usize) -> Tested {
    let mut ceiling = MOST_FIGURE + 1;
    let mut floor = 1;
    for entry in 0..whole {
        let time = u32_at(labels, at + 2 + 8 * entry);
        let energy = u32_at(labels, at + 6 + 8 * entry);
        ask(time_fits(ceiling, time), 17)?;
        ask(energy_fits(floor, energy), 17)?;
        ceiling = time;
        floor = energy + 1;
    }
    Ok(())
}

fn entries_by_chunks(labels: &[u8], at: usize, whole: usize) -> Tested {
    let mut ceiling = MOST_FIGURE + 1;
    let mut floor = 1;
    for entry in labels[at + 2..at + 2 + 8 * whole].chunks_exact(8) {
        let time = u32_at(entry, 0);
        let energy = u32_at(entry, 4);
        ask(time_fits(ceiling, time), 17)?;
        ask(energy_fits(floor, energy), 17)?;
        ceiling = time;
        floor = energy + 1;
    }
    Ok(())
}
