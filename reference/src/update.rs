//! Net rows and the gateway blocks of an Update (01, "Octets").

use crate::answer::Answer;
use crate::net::{self, Class};

/// A neighbour keeps at most this many rows, and the writer takes no more.
pub const MOST_ROWS: usize = 128;

/// What the third number of an external row carries besides its distance.
pub const EXTERNAL: u32 = 256;

/// The largest third number a row can have: distance 255, external.
pub const LARGEST_DISTANCE: u32 = 511;

/// One row: "net, gateway, and distance plus 256 if external".
#[derive(Clone, Copy, Debug, PartialEq, Eq, Hash)]
pub struct Row {
    pub net: u32,
    pub gateway: u32,
    /// The distance, plus 256 if the row is external.
    pub distance: u32,
}

impl Row {
    pub fn is_external(&self) -> bool {
        self.distance >= EXTERNAL
    }

    /// The three numbers a row takes in the table.
    pub fn numbers(&self) -> [u32; 3] {
        [self.net, self.gateway, self.distance]
    }

    pub fn from_numbers(numbers: &[u32]) -> Row {
        Row {
            net: numbers[0],
            gateway: numbers[1],
            distance: numbers[2],
        }
    }
}

/// Reads the gateway blocks: `part` is the message from octet 16 on, `common_net` the net that
/// both ends share.
///
/// "Host, number of distances; for each, distance, number of nets, nets. Internal blocks come
/// first. Nothing may be missing or left over. Any count may be 0. Rows go in message order;
/// repeats stay." A defect anywhere answers 14; only a body that is otherwise good can have too
/// many rows (15).
pub fn read_blocks(
    part: &[u8],
    internal: u8,
    external: u8,
    common_net: u32,
) -> Result<Vec<Row>, Answer> {
    if !net::is_net(common_net) {
        return Err(Answer::BadUpdate);
    }
    let mut rows = Vec::new();
    walk(part, internal, external, common_net, &mut rows).ok_or(Answer::BadUpdate)?;
    if rows.len() > MOST_ROWS {
        return Err(Answer::TooManyRows);
    }
    Ok(rows)
}

/// The walk over the blocks; `None` when something is missing, left over, or no net. The rows
/// before such a defect are in `rows` all the same.
pub fn walk(
    part: &[u8],
    internal: u8,
    external: u8,
    common_net: u32,
    rows: &mut Vec<Row>,
) -> Option<()> {
    let host_octets = Class::of(common_net)?.host_octets();
    let mut rest = part;
    let sides = [(internal, 0), (external, EXTERNAL)];
    for (gateways, mark) in sides {
        for _ in 0..gateways {
            let gateway = common_net | right_justified(take(&mut rest, host_octets)?);
            let distances = take_octet(&mut rest)?;
            for _ in 0..distances {
                let distance = u32::from(take_octet(&mut rest)?) + mark;
                let nets = take_octet(&mut rest)?;
                for _ in 0..nets {
                    let class = Class::of_first_octet(*rest.first()?)?;
                    let net = left_justified(take(&mut rest, class.net_octets())?);
                    rows.push(Row {
                        net,
                        gateway,
                        distance,
                    });
                }
            }
        }
    }
    rest.is_empty().then_some(())
}

/// The next `count` octets, which are then behind us.
fn take<'a>(rest: &mut &'a [u8], count: usize) -> Option<&'a [u8]> {
    if rest.len() < count {
        return None;
    }
    let (taken, left) = rest.split_at(count);
    *rest = left;
    Some(taken)
}

fn take_octet(rest: &mut &[u8]) -> Option<u8> {
    take(rest, 1).map(|octets| octets[0])
}

fn right_justified(octets: &[u8]) -> u32 {
    octets
        .iter()
        .fold(0, |value, &octet| (value << 8) | u32::from(octet))
}

fn left_justified(octets: &[u8]) -> u32 {
    right_justified(octets) << (8 * (4 - octets.len()))
}

/// Whether the writer takes these rows on this net: a good net, at most 128 rows, each one that
/// the reader can give, and no internal row after an external one.
pub fn can_write(net: u32, rows: &[Row]) -> bool {
    net::is_net(net)
        && rows.len() <= MOST_ROWS
        && rows.iter().all(|row| {
            net::is_net(row.net) && net::is_on(row.gateway, net) && row.distance <= LARGEST_DISTANCE
        })
        && rows
            .windows(2)
            .all(|pair| !pair[0].is_external() || pair[1].is_external())
}

/// The gateway blocks of rows that [`can_write`] takes: the internal and external gateway counts
/// and the octets from octet 16 on.
///
/// "Writing groups rows of the same side, then runs of equal gateways, then runs of equal
/// distances."
pub fn write_blocks(common_net: u32, rows: &[Row]) -> (u8, u8, Vec<u8>) {
    let class = Class::of(common_net).expect("the net of an Update that is written is good");
    let first_external = rows.iter().position(Row::is_external).unwrap_or(rows.len());
    let (internal, external) = rows.split_at(first_external);
    let mut octets = Vec::new();
    let internal_gateways = write_side(internal, class, &mut octets);
    let external_gateways = write_side(external, class, &mut octets);
    (internal_gateways, external_gateways, octets)
}

/// Writes the blocks of one side; the answer is how many there were.
fn write_side(rows: &[Row], class: Class, octets: &mut Vec<u8>) -> u8 {
    let mut gateways = 0;
    for block in rows.chunk_by(|left, right| left.gateway == right.gateway) {
        gateways += 1;
        octets.extend_from_slice(&block[0].gateway.to_be_bytes()[class.net_octets()..]);
        let groups: Vec<&[Row]> = block
            .chunk_by(|left, right| left.distance == right.distance)
            .collect();
        octets.push(groups.len() as u8);
        for group in groups {
            octets.push((group[0].distance % EXTERNAL) as u8);
            octets.push(group.len() as u8);
            for row in group {
                let width = Class::of(row.net)
                    .expect("the net of a row that is written is good")
                    .net_octets();
                octets.extend_from_slice(&row.net.to_be_bytes()[..width]);
            }
        }
    }
    gateways
}
