//! The table as text (01, "The listing"; 02, L7).

use crate::answer::Answer;
use crate::gateway::{Outcome, State, SLOT_NUMBERS, TABLE_NUMBERS};
use crate::neighbour::{Mode, Neighbour, NeighbourState};
use crate::net::dotted;
use crate::update::{Row, EXTERNAL, LARGEST_DISTANCE};

/// "Listing buffer at least 65,536."
pub const LISTING_BUFFER: usize = 65_536;

/// Lists the used slots in order with their rows: checks 1, 2, 3. The first length is the
/// listing's, the second 0.
pub fn listing(state: &State, table: &[u32], buffer: &mut [u8]) -> Outcome {
    if !state.is_well_formed() {
        return Outcome::refused(state, Answer::StateNotWellFormed);
    }
    if !table_is_listable(state, table) {
        return Outcome::refused(state, Answer::BadTable);
    }
    if buffer.len() < LISTING_BUFFER {
        return Outcome::refused(state, Answer::ShortBuffer);
    }
    let text = text(state, table);
    buffer[..text.len()].copy_from_slice(text.as_bytes());
    Outcome {
        answer: Answer::Done,
        lengths: (text.len(), 0),
        state: *state,
    }
}

/// A neighbour's rows as the table has them: its first `row_count` ones.
pub fn rows_of<'a>(
    neighbour: &Neighbour,
    slot: usize,
    table: &'a [u32],
) -> impl Iterator<Item = Row> + 'a {
    table[slot * SLOT_NUMBERS..]
        .chunks(3)
        .take(usize::from(neighbour.row_count))
        .map(Row::from_numbers)
}

/// Check 2 of a listing: 3,072 numbers, and no used row's third number above 511.
pub(crate) fn table_is_listable(state: &State, table: &[u32]) -> bool {
    table.len() == TABLE_NUMBERS
        && used_slots(state).all(|(slot, neighbour)| {
            rows_of(neighbour, slot, table).all(|row| row.distance <= LARGEST_DISTANCE)
        })
}

fn used_slots(state: &State) -> impl Iterator<Item = (usize, &Neighbour)> {
    state
        .neighbours
        .iter()
        .enumerate()
        .filter(|(_, neighbour)| neighbour.is_used())
}

/// The listing itself; every line ends in octet 10.
fn text(state: &State, table: &[u32]) -> String {
    let mut text = String::new();
    let mut line = |name: &str, value: &str| {
        text.push_str(name);
        text.push('=');
        text.push_str(value);
        text.push('\n');
    };
    line("neighbours", &used_slots(state).count().to_string());
    for (slot, neighbour) in used_slots(state) {
        line("slot", &slot.to_string());
        line("addr", &dotted(neighbour.address));
        line("as", &neighbour.as_number.to_string());
        line("state", state_word(neighbour.state));
        line("mode", mode_word(neighbour.mode));
        line("rows", &neighbour.row_count.to_string());
        for state in NeighbourState::ALL {
            let seconds = neighbour.seconds.of(state);
            line(seconds_name(state), &seconds.to_string());
        }
        for row in rows_of(neighbour, slot, table) {
            line("net", &dotted(row.net));
            line("gw", &dotted(row.gateway));
            line("dist", &(row.distance % EXTERNAL).to_string());
            line("side", side_word(&row));
        }
    }
    text
}

pub(crate) fn state_word(state: NeighbourState) -> &'static str {
    match state {
        NeighbourState::Idle => "idle",
        NeighbourState::Acquisition => "acquisition",
        NeighbourState::Down => "down",
        NeighbourState::Up => "up",
        NeighbourState::Cease => "cease",
    }
}

/// "The listing gains five lines after `rows`" (02, L7).
fn seconds_name(state: NeighbourState) -> &'static str {
    match state {
        NeighbourState::Idle => "sidle",
        NeighbourState::Acquisition => "sacq",
        NeighbourState::Down => "sdown",
        NeighbourState::Up => "sup",
        NeighbourState::Cease => "scease",
    }
}

/// "Mode is none outside Down and Up", where M is 0.
pub(crate) fn mode_word(mode: Mode) -> &'static str {
    match mode {
        Mode::None => "none",
        Mode::Active => "active",
        Mode::Passive => "passive",
    }
}

pub(crate) fn side_word(row: &Row) -> &'static str {
    if row.is_external() {
        "ext"
    } else {
        "int"
    }
}
