//! Places that a comparison must reach.
//!
//! A place is a predicate on a call, the state and table before it, and what it gave. Each is
//! one where a gateway can be wrong while nearly every other call agrees: two checks that fail
//! at once, a number at its limit or one beyond, a message that nearly gets a reply, an Update
//! that is or nearly is an indication, a Hello or Poll that is or nearly is too quick, a message
//! that is or nearly is a stray one in Idle, a tick that is or nearly is one second too many.

use crate::answer::Answer;
use crate::call::{Call, CallKind, Record};
use crate::checksum;
use crate::coverage::{self, Moment};
use crate::gateway::{self, State, TABLE_NUMBERS};
use crate::generate::faults::ONES;
use crate::generate::material::{self, CARRIES, DIGIT_EDGES};
use crate::generate::{Origin, Step, ADDED_AGAIN};
use crate::listing::{self, LISTING_BUFFER};
use crate::message::{self, Body, Kind, LONGEST, REPLY_BUFFER, SHORTEST, VERSION};
use crate::neighbour::{
    Mode, Neighbour, NeighbourState, Seconds, HELLO_TICKS, MOST_TICKS, P4, POLL_TICKS, STRAYS,
};
use crate::net::{self, Class};
use crate::update::{self, Row, MOST_ROWS};

/// A call with what it was made on and what it gave.
pub struct Seen<'a> {
    pub step: &'a Step,
    pub before: &'a Moment<'a>,
    pub record: &'a Record,
}

impl Seen<'_> {
    fn gives(&self, number: u8) -> bool {
        self.record.answer.number() == number
    }

    fn is_silent(&self) -> bool {
        self.record.lengths == (0, 0)
    }

    /// The neighbour that a message comes from, and its octets.
    fn message(&self) -> Option<(&Neighbour, &[u8])> {
        let Call::Message {
            address, octets, ..
        } = &self.step.call
        else {
            return None;
        };
        let slot = self.before.state.find(*address)?;
        Some((&self.before.state.neighbours[slot], octets))
    }

    /// The neighbour that a tick is for which is carried out.
    fn tick(&self) -> Option<&Neighbour> {
        self.tick_giving(0)
    }

    /// The neighbour that a tick is for which gives this number.
    fn tick_giving(&self, number: u8) -> Option<&Neighbour> {
        let Call::Tick { address, .. } = &self.step.call else {
            return None;
        };
        let slot = self.before.state.find(*address)?;
        self.gives(number)
            .then_some(&self.before.state.neighbours[slot])
    }

    /// The neighbour that something happens to which is carried out, and the row of the machine's
    /// table that it is in.
    fn event(&self) -> Option<(&Neighbour, &'static str)> {
        let call = &self.step.call;
        let slot = self.before.state.find(call.event_address()?)?;
        let neighbour = &self.before.state.neighbours[slot];
        let event = match call {
            _ if !self.gives(0) => return None,
            Call::Start { .. } => "Start",
            Call::Stop { .. } => "Stop",
            Call::Message { octets, .. } => {
                let kind = kind_of(octets)?;
                coverage::event_label(kind, octets, self.before.state, neighbour)
            }
            _ => return None,
        };
        Some((neighbour, event))
    }

    /// The neighbour that an Update comes from, and its octets.
    fn update(&self) -> Option<(&Neighbour, &[u8])> {
        self.message()
            .filter(|(_, octets)| kind_of(octets) == Some(Kind::Update))
    }
}

/// A named place.
pub struct Place {
    pub name: String,
    holds: Box<dyn Fn(&Seen) -> bool>,
}

impl Place {
    pub fn holds(&self, seen: &Seen) -> bool {
        (self.holds)(seen)
    }
}

fn place(name: impl Into<String>, holds: impl Fn(&Seen) -> bool + 'static) -> Place {
    Place {
        name: name.into(),
        holds: Box::new(holds),
    }
}

/// All places, in the order in which they are printed.
pub fn all() -> Vec<Place> {
    let mut places = checks_together();
    places.extend(states());
    places.extend(quiet_values());
    places.extend(sizes());
    places.extend(strangers());
    places.extend(strays());
    places.extend(updates());
    places.extend(indications());
    places.extend(rates());
    places.extend(ticks());
    places.extend(counts());
    places.extend(seconds_in_states());
    places.extend(seconds_of_ticks());
    places.extend(full_sums());
    places.extend(seconds_kept());
    places.extend(seconds_listed());
    places.extend(home_lists());
    places.extend(readings());
    places.extend(writings());
    places
}

// Two checks that fail in one call.

/// Checks of a call that stand next to each other. In remove 5 and 18 can't both fail.
const PAIRS: [(CallKind, &[(u8, u8)]); 8] = [
    (
        CallKind::Message,
        &[
            (1, 2),
            (2, 3),
            (3, 4),
            (4, 5),
            (5, 6),
            (6, 7),
            (7, 8),
            (8, 9),
            (9, 10),
            (10, 11),
            (11, 12),
            (12, 13),
            // 13 and 21 are about different kinds.
            (12, 21),
            (13, 14),
            (14, 15),
        ],
    ),
    (CallKind::Start, &[(1, 2), (2, 3), (3, 5)]),
    (CallKind::Stop, &[(1, 2), (2, 3), (3, 5)]),
    (
        CallKind::Tick,
        // 5 and 22 can't both fail of one neighbour.
        &[(1, 2), (2, 3), (3, 5), (1, 22), (2, 22), (3, 22)],
    ),
    (CallKind::Listing, &[(1, 2), (2, 3)]),
    (CallKind::Add, &[(1, 16), (16, 17)]),
    (CallKind::Remove, &[(1, 5), (1, 18)]),
    (CallKind::Write, &[(3, 16)]),
];

fn checks_together() -> Vec<Place> {
    let mut places = Vec::new();
    for (kind, pairs) in PAIRS {
        for &(first, second) in pairs {
            let name = format!("{kind:?}: {first} before {second}");
            places.push(place(name, move |seen| {
                seen.step.call.kind() == Some(kind) && seen.gives(first) && fails(seen, second)
            }));
        }
    }
    // In a listing 2 fails for a row too.
    for (first, second) in [(1, 2), (2, 3)] {
        let name = format!("Listing: {first} before {second}, for a row");
        places.push(place(name, move |seen| {
            matches!(seen.step.call, Call::Listing { .. })
                && seen.gives(first)
                && seen.before.table.len() == TABLE_NUMBERS
                && fails(seen, second)
        }));
    }
    places
}

/// Whether a check fails, taken by itself: what stands before it may have failed already.
fn fails(seen: &Seen, check: u8) -> bool {
    let (state, table) = (seen.before.state, seen.before.table);
    let is_unknown = |address: u32| state.find(address).is_none();
    match (check, &seen.step.call) {
        (1, _) => !state.is_well_formed(),
        (2, Call::Listing { .. }) => !listing::table_is_listable(state, table),
        (2, _) => table.len() != TABLE_NUMBERS,
        (3, Call::Listing { buffer }) => buffer.length < LISTING_BUFFER,
        (3, call) => call
            .buffer()
            .is_some_and(|buffer| buffer.length < REPLY_BUFFER),
        (4, Call::Message { home, .. }) => gateway::home_rows(state, home).is_none(),
        (5, Call::Remove { address }) => is_unknown(*address),
        (5, call) => call.event_address().is_some_and(is_unknown),
        (6..=8, Call::Message { octets, .. }) => frame_fails(octets, check),
        (9..=15 | 21, Call::Message { .. }) => seen
            .message()
            .is_some_and(|(neighbour, octets)| content_fails(state, neighbour, octets, check)),
        (16, Call::Add { address, as_number }) => {
            !state.may_be_neighbour(*address, *as_number) || !is_unknown(*address)
        }
        (16, Call::Write { message, loose, .. }) => {
            !message::can_write(message) || !loose.is_empty()
        }
        (22, Call::Tick { address, .. }) => state
            .find(*address)
            .is_some_and(|slot| state.neighbours[slot].seconds.is_full()),
        (17, Call::Add { .. }) => state.neighbours.iter().all(Neighbour::is_used),
        (18, Call::Remove { address }) => state
            .find(*address)
            .is_some_and(|slot| state.neighbours[slot].state != NeighbourState::Idle),
        _ => false,
    }
}

/// Checks 6 to 8 by themselves.
fn frame_fails(octets: &[u8], check: u8) -> bool {
    match check {
        6 => !(SHORTEST..=LONGEST).contains(&octets.len()),
        7 => octets.first().is_some_and(|version| *version != VERSION),
        _ => octets.len() >= 6 && octets[4..6] != checksum::checksum(octets).to_be_bytes(),
    }
}

/// Checks 9 to 15 and 21 by themselves, on a message of a good size.
fn content_fails(state: &State, neighbour: &Neighbour, octets: &[u8], check: u8) -> bool {
    let kind = kind_of(octets);
    let is_update_in_up = kind == Some(Kind::Update) && neighbour.state == NeighbourState::Up;
    match check {
        9 => message::as_number(octets) != neighbour.as_number,
        10 => kind.is_none(),
        // An unknown kind has a bad status if no kind allows it.
        11 => match kind {
            Some(kind) => !kind.allows_status(octets[3]),
            None => Kind::ALL.iter().all(|kind| !kind.allows_status(octets[3])),
        },
        12 => kind.is_some_and(|kind| !kind.allows_length(octets.len())),
        13 => {
            neighbour.state != NeighbourState::Idle
                && kind.is_some_and(Kind::must_carry_s)
                && message::sequence(octets) != neighbour.send_sequence
        }
        21 => kind.is_some_and(|kind| neighbour.is_too_soon_for(kind)),
        14 => is_update_in_up && message::read_rows(octets, state.net) == Err(Answer::BadUpdate),
        _ => is_update_in_up && rows_before_a_defect(octets, state.net) > MOST_ROWS,
    }
}

fn kind_of(octets: &[u8]) -> Option<Kind> {
    let [_, message_type, code, ..] = *octets else {
        return None;
    };
    Kind::from_type_and_code((message_type, code))
}

/// How many rows the body of an Update has, up to its first defect if it has one.
fn rows_before_a_defect(octets: &[u8], common_net: u32) -> usize {
    let mut rows = Vec::new();
    if octets.len() >= 16 {
        let _ = update::walk(&octets[16..], octets[10], octets[11], common_net, &mut rows);
    }
    rows.len()
}

// States that the host hands in.

/// A variable that check 1 bounds, below too if it has a least value.
struct Bounded {
    name: &'static str,
    get: fn(&Neighbour) -> u16,
    set: fn(&mut Neighbour, u16),
    least: Option<u16>,
    most: u16,
}

const BOUNDED: [Bounded; 11] = [
    Bounded {
        name: "T1",
        get: |n| n.hello_interval,
        set: |n, value| n.hello_interval = value,
        least: Some(32),
        most: 122,
    },
    Bounded {
        name: "T2",
        get: |n| n.poll_interval,
        set: |n, value| n.poll_interval = value,
        least: Some(122),
        most: 482,
    },
    Bounded {
        name: "t1",
        get: |n| n.t1,
        set: |n, value| n.t1 = value,
        least: Some(1),
        most: 122,
    },
    Bounded {
        name: "t2",
        get: |n| n.t2,
        set: |n, value| n.t2 = value,
        least: Some(1),
        most: 482,
    },
    Bounded {
        name: "t3",
        get: |n| n.t3,
        set: |n, value| n.t3 = value,
        least: Some(1),
        most: 3600,
    },
    Bounded {
        name: "register",
        get: |n| n.register.into(),
        set: |n, value| n.register = value as u8,
        least: None,
        most: 15,
    },
    Bounded {
        name: "heard",
        get: |n| n.heard.into(),
        set: |n, value| n.heard = value as u8,
        least: None,
        most: 1,
    },
    Bounded {
        name: "cause",
        get: |n| n.cause.into(),
        set: |n, value| n.cause = value as u8,
        least: Some(5),
        most: 6,
    },
    Bounded {
        name: "row count",
        get: |n| n.row_count,
        set: |n, value| n.row_count = value,
        least: None,
        most: 128,
    },
    Bounded {
        name: "since Hello",
        get: |n| n.since_hello.into(),
        set: |n, value| n.since_hello = value as u8,
        least: None,
        most: 120,
    },
    Bounded {
        name: "since Poll",
        get: |n| n.since_poll.into(),
        set: |n, value| n.since_poll = value as u8,
        least: None,
        most: 120,
    },
];

fn states() -> Vec<Place> {
    let mut places = Vec::new();
    for (name, set) in ONES {
        places.push(place(format!("state: Idle, {name} 1"), move |seen| {
            seen.gives(1)
                && any_mended(seen.before.state, |neighbour| {
                    let bare = neighbour.in_idle();
                    let mut wrong = bare;
                    set(&mut wrong);
                    (neighbour.is_used() && *neighbour == wrong).then_some(bare)
                })
        }));
    }
    places.push(place("state: free slot, one field not 0", |seen| {
        seen.gives(1)
            && any_mended(seen.before.state, |slot| {
                has_one_field(slot).then_some(Neighbour::default())
            })
    }));
    for (name, count) in COUNTS {
        let name = format!("state: free slot, since {name} alone");
        places.push(place(name, move |seen| {
            seen.gives(1)
                && any_mended(seen.before.state, |slot| {
                    let is_alone = !slot.is_used() && count(slot) > 0 && has_one_field(slot);
                    is_alone.then_some(Neighbour::default())
                })
        }));
    }
    for bounded in BOUNDED {
        let Bounded { get, set, most, .. } = bounded;
        // A good value is its own nearest good one.
        let mut at = |value: u16, nearest: u16| {
            let name = format!("state: {} {value}", bounded.name);
            places.push(place(name, move |seen| {
                if seen.step.origin != Origin::HandedIn || !makes_check_1(&seen.step.call) {
                    return false;
                }
                if value == nearest {
                    let neighbours = &seen.before.state.neighbours;
                    return !seen.gives(1) && neighbours.iter().any(|n| get(n) == value);
                }
                seen.gives(1)
                    && any_mended(seen.before.state, |neighbour| {
                        let mut mended = *neighbour;
                        set(&mut mended, nearest);
                        (get(neighbour) == value).then_some(mended)
                    })
            }));
        };
        if let Some(least) = bounded.least {
            at(least - 1, least);
            at(least, least);
        }
        at(most, most);
        at(most + 1, most);
    }
    places
}

/// Whether just one field of a free slot is not zero: AS, a state, or one that is 1.
fn has_one_field(slot: &Neighbour) -> bool {
    let free = Neighbour::default();
    let mut alone = vec![
        Neighbour {
            as_number: slot.as_number,
            ..free
        },
        Neighbour {
            state: slot.state,
            ..free
        },
    ];
    for (_, set) in ONES {
        let mut one = free;
        set(&mut one);
        alone.push(one);
    }
    *slot != free && alone.contains(slot)
}

/// Whether a state is well formed but for one neighbour, which `mend` makes good.
fn any_mended(state: &State, mend: impl Fn(&Neighbour) -> Option<Neighbour>) -> bool {
    (0..state.neighbours.len()).any(|slot| {
        mend(&state.neighbours[slot]).is_some_and(|mended| {
            let mut state = *state;
            state.neighbours[slot] = mended;
            state.is_well_formed()
        })
    })
}

fn makes_check_1(call: &Call) -> bool {
    call.kind().is_some_and(|kind| kind.answers().contains(&1))
}

/// `quiet` as fresh is given it, and as a state that is handed in has it.
fn quiet_values() -> Vec<Place> {
    let mut places = Vec::new();
    for value in 0..=2 {
        places.push(place(format!("Fresh: quiet {value}"), move |seen| {
            let Call::Fresh {
                as_number,
                address,
                capability,
                net,
                quiet,
            } = seen.step.call
            else {
                return false;
            };
            // With a good value it would be carried out.
            let mended = gateway::fresh(as_number, address, capability, net, 0);
            quiet == value && mended.answer == Answer::Done
        }));
    }
    for value in 1..=2 {
        places.push(place(format!("state: quiet {value}"), move |seen| {
            let state = State {
                quiet: 0,
                ..*seen.before.state
            };
            seen.step.origin == Origin::HandedIn
                && makes_check_1(&seen.step.call)
                && seen.before.state.quiet == value
                && state.is_well_formed()
        }));
    }
    places
}

// Messages.

fn sizes() -> Vec<Place> {
    let size = |length: usize, is_good: bool| {
        place(format!("message: {length} octets"), move |seen| {
            let number = seen.record.answer.number();
            let is_looked_at = number == 0 || number > 6;
            let wanted = if is_good { is_looked_at } else { number == 6 };
            wanted
                && matches!(&seen.step.call, Call::Message { octets, .. } if octets.len() == length)
        })
    };
    vec![
        size(SHORTEST - 1, false),
        size(SHORTEST, true),
        size(LONGEST, true),
        size(LONGEST + 1, false),
    ]
}

/// What the reply to a message from another AS goes by.
struct Shape {
    pair: (u8, u8),
    status: u8,
    length: usize,
}

impl Shape {
    /// Whether it is as a Request has to be, but for type and code.
    fn is(&self, pair: (u8, u8)) -> bool {
        self.pair == pair && self.status <= 2 && self.length == 14
    }
}

/// A message that this state answers 9.
fn stranger(seen: &Seen, state: NeighbourState) -> Option<Shape> {
    let (neighbour, octets) = seen.message()?;
    let [_, message_type, code, status, ..] = *octets else {
        return None;
    };
    (seen.gives(9) && neighbour.state == state).then_some(Shape {
        pair: (message_type, code),
        status,
        length: octets.len(),
    })
}

const REQUEST: (u8, u8) = (3, 0);
const CONFIRM: (u8, u8) = (3, 1);

fn strangers() -> Vec<Place> {
    use NeighbourState::{Acquisition, Cease, Down, Idle, Up};
    let silent = |name: &str, state: NeighbourState, is_wanted: fn(&Shape) -> bool| {
        place(format!("other AS: {name} in {state:?}"), move |seen| {
            seen.is_silent() && stranger(seen, state).is_some_and(|shape| is_wanted(&shape))
        })
    };
    let mut places = vec![
        place("other AS: Request in Idle, Refuse 4", |seen| {
            !seen.is_silent() && stranger(seen, Idle).is_some_and(|shape| shape.is(REQUEST))
        }),
        silent("other kind", Idle, |shape| {
            shape.is(shape.pair) && ![REQUEST, CONFIRM].contains(&shape.pair)
        }),
        silent("Request of status 3", Idle, |shape| {
            (shape.pair, shape.status, shape.length) == (REQUEST, 3, 14)
        }),
        silent("Request of other length", Idle, |shape| {
            shape.pair == REQUEST && shape.status <= 2 && shape.length != 14
        }),
    ];
    for state in [Acquisition, Down, Up, Cease] {
        places.push(silent("Request", state, |shape| shape.is(REQUEST)));
    }
    places
}

// Messages to a neighbour in Idle.

/// What comes from a neighbour in Idle, by its kind, and gives this number.
fn in_idle<'a>(seen: &'a Seen, quiet: u8, kind: Kind, number: u8) -> Option<&'a [u8]> {
    let (neighbour, octets) = seen.message()?;
    let is_wanted = seen.gives(number)
        && neighbour.state == NeighbourState::Idle
        && seen.before.state.quiet == quiet
        && kind_of(octets) == Some(kind);
    is_wanted.then_some(octets)
}

/// Each message that draws a Cease, good and nearly so, and those that draw none, with each setting.
fn strays() -> Vec<Place> {
    let mut places = Vec::new();
    for quiet in [0, 1] {
        let mut add = |kind: Kind, what: &str, number: u8, holds: fn(Kind, &[u8]) -> bool| {
            let name = format!("{kind:?}{what} in Idle, quiet {quiet}");
            places.push(place(name, move |seen| {
                in_idle(seen, quiet, kind, number).is_some_and(|octets| holds(kind, octets))
            }));
        };
        for kind in STRAYS {
            // The Cease carries 0, whatever number the message has.
            add(kind, "", 0, |_, octets| message::sequence(octets) != 0);
            add(kind, " of another AS", 9, |kind, octets| {
                kind.allows_status(octets[3]) && kind.allows_length(octets.len())
            });
            add(kind, " of a wrong status", 11, |kind, octets| {
                kind.allows_length(octets.len())
            });
            add(kind, " of a wrong length", 12, |_, _| true);
        }
        for kind in [Kind::Request, Kind::Cease, Kind::CeaseAck, Kind::Error] {
            add(kind, "", 0, |_, _| true);
        }
        let name = format!("Update with a bad body in Idle, quiet {quiet}");
        places.push(place(name, move |seen| {
            in_idle(seen, quiet, Kind::Update, 0).is_some_and(|octets| has_bad_body(seen, octets))
        }));
    }
    places
}

// Bodies of Updates.

fn has_bad_body(seen: &Seen, octets: &[u8]) -> bool {
    message::read_rows(octets, seen.before.state.net) == Err(Answer::BadUpdate)
}

fn updates() -> Vec<Place> {
    use NeighbourState::{Acquisition, Cease, Down, Up};
    let mut places = Vec::new();
    for state in [Acquisition, Down, Cease] {
        let name = format!("Update with a bad body in {state:?}");
        places.push(place(name, move |seen| {
            seen.gives(0)
                && seen.update().is_some_and(|(neighbour, octets)| {
                    neighbour.state == state && has_bad_body(seen, octets)
                })
        }));
    }
    places.push(place("Update of 129 rows, then a defect", |seen| {
        seen.gives(14)
            && seen.update().is_some_and(|(neighbour, octets)| {
                neighbour.state == Up
                    && rows_before_a_defect(octets, seen.before.state.net) == MOST_ROWS + 1
            })
    }));
    places
}

// Updates as indications.

/// An Update from a neighbour of this mode and state that gives this number, where an indication
/// would show: heard is 0, and t3 below what it would be set to.
fn unheard<'a>(seen: &'a Seen, mode: Mode, state: NeighbourState, number: u8) -> Option<&'a [u8]> {
    if !seen.gives(number) {
        return None;
    }
    let (neighbour, octets) = seen.update()?;
    let is_wanted = (neighbour.mode, neighbour.state) == (mode, state)
        && neighbour.heard == 0
        && neighbour.t3 < P4;
    is_wanted.then_some(octets)
}

/// Whether an Update's status is Up, asked for or not.
fn says_up(octets: &[u8]) -> bool {
    [1, 129].contains(&octets[3])
}

fn indications() -> Vec<Place> {
    use Mode::{Active, Passive};
    use NeighbourState::{Acquisition, Cease, Down, Idle, Up};
    let mut places = Vec::new();
    for (mode, state) in [(Active, Down), (Active, Up), (Passive, Down), (Passive, Up)] {
        for status in [0, 1, 2, 128, 129, 130] {
            let name = format!("unheard, {mode:?} in {state:?}: Update {status}");
            places.push(place(name, move |seen| {
                unheard(seen, mode, state, 0).is_some_and(|octets| octets[3] == status)
            }));
        }
    }
    // What says Up is an indication whatever its body in Down, but not if it is refused.
    places.push(place(
        "unheard, Passive in Down: bad Update 1 or 129",
        |seen| {
            unheard(seen, Passive, Down, 0)
                .is_some_and(|octets| says_up(octets) && has_bad_body(seen, octets))
        },
    ));
    for (state, number) in [(Down, 13), (Up, 13), (Up, 14), (Up, 15)] {
        let name = format!("unheard, Passive in {state:?}: Update 1 or 129, {number}");
        places.push(place(name, move |seen| {
            unheard(seen, Passive, state, number).is_some_and(says_up)
        }));
    }
    // Nor where no mode is set.
    for state in [Idle, Acquisition, Cease] {
        let name = format!("unheard, {state:?}: Update 1 or 129");
        places.push(place(name, move |seen| {
            unheard(seen, Mode::None, state, 0).is_some_and(says_up)
        }));
    }
    places
}

// Hellos and Polls, and how long after the last they come.

/// A count of ticks.
type Count = fn(&Neighbour) -> u8;

const COUNTS: [(&str, Count); 2] = [("Hello", |n| n.since_hello), ("Poll", |n| n.since_poll)];

/// What must be some ticks apart.
struct Rated {
    kind: Kind,
    since: Count,
    apart: u8,
}

/// The counts at which each of them comes: about both rates.
const NEAR_THE_RATES: [u8; 7] = [28, 29, 30, 31, 118, 119, 120];

const RATED: [Rated; 2] = [
    Rated {
        kind: Kind::Hello,
        since: |n| n.since_hello,
        apart: HELLO_TICKS,
    },
    Rated {
        kind: Kind::Poll,
        since: |n| n.since_poll,
        apart: POLL_TICKS,
    },
];

impl Rated {
    /// A message of this kind that gives this number: its neighbour, and its octets.
    fn sent<'a>(&self, seen: &'a Seen, number: u8) -> Option<(&'a Neighbour, &'a [u8])> {
        let (neighbour, octets) = seen.message()?;
        let is_wanted = seen.gives(number) && kind_of(octets) == Some(self.kind);
        is_wanted.then_some((neighbour, octets))
    }
}

fn rates() -> Vec<Place> {
    use NeighbourState::{Acquisition, Cease, Down, Up};
    let mut places = Vec::new();
    for rated in &RATED {
        let kind = rated.kind;
        for count in NEAR_THE_RATES {
            let number = if count < rated.apart { 21 } else { 0 };
            for (mode, state) in [
                (Mode::Active, Down),
                (Mode::Active, Up),
                (Mode::Passive, Down),
                (Mode::Passive, Up),
            ] {
                let name = format!("{kind:?} at {count}, {mode:?} in {state:?}");
                places.push(place(name, move |seen| {
                    rated.sent(seen, number).is_some_and(|(neighbour, _)| {
                        (neighbour.mode, neighbour.state) == (mode, state)
                            && (rated.since)(neighbour) == count
                    })
                }));
            }
            // Nothing is too soon there.
            for state in [Acquisition, Cease] {
                let name = format!("{kind:?} at {count} in {state:?}");
                places.push(place(name, move |seen| {
                    rated.sent(seen, 0).is_some_and(|(neighbour, _)| {
                        neighbour.state == state && (rated.since)(neighbour) == count
                    })
                }));
            }
        }
        for state in [Down, Up] {
            // The Error carries R as it was, and nothing is noted.
            let name = format!("{kind:?} 1 too quick, unheard, other R, Passive in {state:?}");
            places.push(place(name, move |seen| {
                rated.sent(seen, 21).is_some_and(|(neighbour, octets)| {
                    (neighbour.mode, neighbour.state) == (Mode::Passive, state)
                        && octets[3] == 1
                        && neighbour.heard == 0
                        && neighbour.t3 < P4
                        && message::sequence(octets) != neighbour.receive_sequence
                })
            }));
        }
    }
    let elsewhere = |count: u8, state: NeighbourState, number: u8| {
        let name = format!("Poll for another net at {count} in {state:?}");
        place(name, move |seen| {
            RATED[1]
                .sent(seen, number)
                .is_some_and(|(neighbour, octets)| {
                    let net = seen.before.state.net.to_be_bytes();
                    neighbour.state == state
                        && neighbour.since_poll == count
                        && octets[12..16] != net
                })
        })
    };
    for state in [Down, Up] {
        places.push(elsewhere(POLL_TICKS - 1, state, 21));
        places.push(elsewhere(POLL_TICKS, state, 0));
    }
    places.extend(each_by_its_own());
    places
}

/// Each kind goes by its own count, whatever the other's is.
fn each_by_its_own() -> Vec<Place> {
    fn own_and_other(
        name: &str,
        rated: &'static Rated,
        number: u8,
        holds: fn(&Neighbour) -> bool,
    ) -> Place {
        place(name, move |seen| {
            rated
                .sent(seen, number)
                .is_some_and(|(neighbour, _)| neighbour.state.is_acquired() && holds(neighbour))
        })
    }
    let [hello, poll] = &RATED;
    vec![
        own_and_other("Hello below 30, Poll at 120", hello, 21, |n| {
            n.since_poll == POLL_TICKS
        }),
        own_and_other("Hello from 30 on, Poll below 30", hello, 0, |n| {
            n.since_poll < HELLO_TICKS
        }),
        own_and_other("Poll below 120, Hello at 120", poll, 21, |n| {
            n.since_hello == POLL_TICKS
        }),
        own_and_other("Poll at 120, Hello below 30", poll, 0, |n| {
            n.since_hello < HELLO_TICKS
        }),
    ]
}

// Ticks, and how they are counted.

/// Whether neither count is 0 or as large as may be, so that any change shows.
fn are_between(neighbour: &Neighbour) -> bool {
    let range = 1..MOST_TICKS;
    range.contains(&neighbour.since_hello) && range.contains(&neighbour.since_poll)
}

fn ticks() -> Vec<Place> {
    use NeighbourState::{Acquisition, Cease, Down, Up};
    let mut places = Vec::new();
    for state in [Acquisition, Down, Up, Cease] {
        for (name, count) in COUNTS {
            for value in [MOST_TICKS - 1, MOST_TICKS] {
                let name = format!("tick in {state:?}, since {name} {value}");
                places.push(place(name, move |seen| {
                    seen.tick()
                        .is_some_and(|n| n.state == state && count(n) == value && n.t3 > 1)
                }));
            }
        }
        // Cease goes on counting; Idle does not.
        let name = format!("tick that ends t3 in {state:?}, counts between");
        places.push(place(name, move |seen| {
            seen.tick()
                .is_some_and(|n| n.state == state && n.t3 == 1 && are_between(n))
        }));
    }
    for (from, to) in [(Down, Up), (Up, Down)] {
        let name = format!("tick from {from:?} to {to:?}, counts between");
        places.push(place(name, move |seen| {
            seen.tick().is_some_and(|n| {
                n.state == from && n.t3 > 1 && n.t1 == 1 && is_turned(n) && are_between(n)
            })
        }));
    }
    places
}

/// Whether the next evaluation takes the neighbour from Down to Up, or from Up to Down.
fn is_turned(neighbour: &Neighbour) -> bool {
    let ones = (neighbour.register << 1 & 0b1111 | neighbour.heard).count_ones();
    match (neighbour.state, neighbour.mode) {
        (NeighbourState::Down, Mode::Active) => ones >= 3,
        (NeighbourState::Down, _) => ones >= 1,
        (_, Mode::Active) => ones <= 1,
        _ => ones == 0,
    }
}

/// What happens to the counts by another event than a tick, a Hello or a Poll.
fn counts() -> Vec<Place> {
    use NeighbourState::{Acquisition, Cease, Down, Up};
    let kept: [(&str, &[NeighbourState]); 4] = [
        ("Start", &[Acquisition, Down, Up, Cease]),
        ("Stop", &[Down, Up]),
        ("Request, acceptable", &[Cease]),
        ("Request, unacceptable", &[Down, Up, Cease]),
    ];
    let set: [(&str, &[NeighbourState]); 2] = [
        ("Request, acceptable", &[Acquisition, Down, Up]),
        ("Confirm, acceptable", &[Acquisition]),
    ];
    let zeroed: [(&str, &[NeighbourState]); 6] = [
        ("Cease", &[Acquisition, Down, Up, Cease]),
        ("Stop", &[Acquisition, Cease]),
        ("Refuse", &[Acquisition]),
        ("Request, unacceptable", &[Acquisition]),
        ("Confirm, unacceptable", &[Acquisition]),
        ("Cease-ack", &[Cease]),
    ];
    let all = [
        ("kept", kept.as_slice()),
        ("set", set.as_slice()),
        ("zeroed", zeroed.as_slice()),
    ];
    let mut places = Vec::new();
    for (what, events) in all {
        for &(event, states) in events {
            for &state in states {
                let name = format!("counts {what}: {event} in {state:?}");
                places.push(place(name, move |seen| {
                    seen.event().is_some_and(|(neighbour, happens)| {
                        happens == event && neighbour.state == state && are_between(neighbour)
                    })
                }));
            }
        }
    }
    places
}

// Seconds in each of the five states.

/// Whether a neighbour's seconds are such that any change of them shows.
fn are_apart(neighbour: &Neighbour) -> bool {
    material::are_apart(neighbour.seconds)
}

fn has_all_five(seconds: Seconds) -> bool {
    !seconds.all().contains(&0)
}

/// The state of the only count that is not 0.
fn alone(seconds: Seconds) -> Option<NeighbourState> {
    let mut counted = NeighbourState::ALL
        .into_iter()
        .filter(|state| seconds.of(*state) > 0);
    counted.next().filter(|_| counted.next().is_none())
}

/// Seconds of states that the host hands in: of Idle, of free slots, at their sum's limit and beyond.
fn seconds_in_states() -> Vec<Place> {
    fn is_taken(seen: &Seen) -> bool {
        seen.step.origin == Origin::HandedIn && makes_check_1(&seen.step.call) && !seen.gives(1)
    }
    /// Whether a state is refused just for the seconds of one neighbour, or of a free slot.
    fn is_refused(seen: &Seen, is_wanted: impl Fn(&Neighbour) -> bool) -> bool {
        seen.gives(1)
            && any_mended(seen.before.state, |slot| {
                let mended = Neighbour {
                    seconds: Seconds::default(),
                    ..*slot
                };
                is_wanted(slot).then_some(mended)
            })
    }
    let mut places = Vec::new();
    for state in NeighbourState::ALL {
        let name = format!("state: Idle, seconds in {state:?} alone");
        places.push(place(name, move |seen| {
            let is_wanted = |n: &Neighbour| {
                n.is_used() && n.state == NeighbourState::Idle && alone(n.seconds) == Some(state)
            };
            is_taken(seen) && seen.before.state.neighbours.iter().any(is_wanted)
        }));
        let name = format!("state: free slot, seconds in {state:?} alone");
        places.push(place(name, move |seen| {
            is_refused(seen, |n| !n.is_used() && alone(n.seconds) == Some(state))
        }));
        let name = format!("state: {state:?}, sum 4,294,967,295");
        places.push(place(name, move |seen| {
            let is_wanted = |n: &Neighbour| n.state == state && n.seconds.sum() == Seconds::MOST;
            is_taken(seen) && seen.before.state.neighbours.iter().any(is_wanted)
        }));
        // Without any of the five it would be good.
        let name = format!("state: {state:?}, sum 4,294,967,296 of all five");
        places.push(place(name, move |seen| {
            is_refused(seen, |n| {
                let is_wanted = n.state == state && n.seconds.sum() == Seconds::MOST + 1;
                is_wanted && has_all_five(n.seconds)
            })
        }));
    }
    places.push(place("state: seconds 4,294,967,295 and 1", |seen| {
        is_refused(seen, |n| {
            let mut counts = n.seconds.all();
            counts.sort_unstable();
            counts == [0, 0, 0, 1, u32::MAX]
        })
    }));
    places.push(place("state: every count 4,294,967,295", |seen| {
        is_refused(seen, |n| n.seconds.all() == [u32::MAX; 5])
    }));
    places
}

/// The state after a tick that is carried out.
fn after_tick(neighbour: &Neighbour) -> NeighbourState {
    use NeighbourState::{Acquisition, Cease, Down, Idle, Up};
    match (neighbour.state, neighbour.t3, neighbour.t1) {
        (Idle, ..) | (Acquisition | Cease, 1, _) => Idle,
        (Down | Up, 1, _) => Cease,
        (Down, _, 1) if is_turned(neighbour) => Up,
        (Up, _, 1) if is_turned(neighbour) => Down,
        (state, ..) => state,
    }
}

/// A tick belongs to the state before it, and a refused one to none.
fn seconds_of_ticks() -> Vec<Place> {
    use NeighbourState::{Acquisition, Cease, Down, Idle, Up};
    let mut places = Vec::new();
    let stays = NeighbourState::ALL.map(|state| (state, state));
    let turns = [
        (Acquisition, Idle),
        (Down, Up),
        (Up, Down),
        (Down, Cease),
        (Up, Cease),
        (Cease, Idle),
    ];
    for (from, to) in stays.into_iter().chain(turns) {
        let name = match from == to {
            true => format!("tick in {from:?}, seconds apart"),
            false => format!("tick from {from:?} to {to:?}, seconds apart"),
        };
        places.push(place(name, move |seen| {
            seen.tick()
                .is_some_and(|n| n.state == from && after_tick(n) == to && are_apart(n))
        }));
    }
    for state in NeighbourState::ALL {
        for count in CARRIES {
            let name = format!("tick in {state:?}, seconds {count:X} there");
            places.push(place(name, move |seen| {
                seen.tick()
                    .is_some_and(|n| n.state == state && n.seconds.of(state) == count)
            }));
        }
    }
    for number in [2, 3] {
        let name = format!("tick refused {number}, seconds apart");
        places.push(place(name, move |seen| {
            seen.tick_giving(number)
                .is_some_and(|n| n.state != Idle && are_apart(n))
        }));
    }
    places
}

/// Check 22, on both of its sides, and what it is not about.
fn full_sums() -> Vec<Place> {
    let mut places = Vec::new();
    for state in NeighbourState::ALL {
        for (sum, number) in [(Seconds::MOST - 1, 0), (Seconds::MOST, 22)] {
            let name = format!("tick in {state:?}, sum {sum} of all five");
            places.push(place(name, move |seen| {
                seen.tick_giving(number).is_some_and(|n| {
                    let is_wanted = n.state == state && n.seconds.sum() == sum;
                    is_wanted && has_all_five(n.seconds)
                })
            }));
            let name = format!("tick in {state:?}, all {sum} there");
            places.push(place(name, move |seen| {
                seen.tick_giving(number)
                    .is_some_and(|n| n.state == state && n.seconds == material::all_in(state, sum))
            }));
        }
    }
    type Timer = fn(&Neighbour) -> u16;
    let timers: [(&str, Timer); 3] = [("t1", |n| n.t1), ("t2", |n| n.t2), ("t3", |n| n.t3)];
    for (name, timer) in timers {
        // What it would send or clear is neither sent nor cleared.
        places.push(place(format!("tick refused 22, {name} 1"), move |seen| {
            seen.tick_giving(22).is_some_and(|n| timer(n) == 1)
        }));
    }
    fn is_another_full(seen: &Seen) -> bool {
        let address = seen.step.call.event_address();
        let neighbours = seen.before.state.neighbours.iter();
        neighbours
            .filter(|n| n.is_used() && Some(n.address) != address)
            .any(|n| n.seconds.is_full())
    }
    places.push(place("tick, another's sum 4,294,967,295", |seen| {
        seen.tick().is_some() && is_another_full(seen)
    }));
    places.push(place("tick for nobody, a sum 4,294,967,295", |seen| {
        matches!(seen.step.call, Call::Tick { .. }) && seen.gives(5) && is_another_full(seen)
    }));
    for kind in [CallKind::Start, CallKind::Stop, CallKind::Message] {
        for state in NeighbourState::ALL {
            let name = format!("{kind:?} in {state:?}, sum 4,294,967,295");
            places.push(place(name, move |seen| {
                seen.step.call.kind() == Some(kind)
                    && seen
                        .event()
                        .is_some_and(|(n, _)| n.state == state && n.seconds.is_full())
            }));
        }
    }
    places
}

/// What changes a neighbour's record and not its seconds; and who is gone takes them along.
fn seconds_kept() -> Vec<Place> {
    use NeighbourState::{Acquisition, Cease, Down, Idle, Up};
    let events: [(&str, &[NeighbourState]); 13] = [
        ("Request, acceptable", &[Idle, Acquisition, Down, Up]),
        ("Request, unacceptable", &[Acquisition, Down, Up]),
        ("Confirm, acceptable", &[Acquisition]),
        ("Confirm, unacceptable", &[Acquisition]),
        ("Refuse", &[Acquisition]),
        ("Cease", &NeighbourState::ALL),
        ("Cease-ack", &[Cease]),
        ("Hello", &[Idle, Down, Up]),
        ("I-H-U", &[Down, Up]),
        ("Poll", &[Down, Up]),
        ("Update", &[Idle, Down, Up]),
        ("Start", &NeighbourState::ALL),
        ("Stop", &NeighbourState::ALL),
    ];
    let mut places = Vec::new();
    for (event, states) in events {
        for &state in states {
            let name = format!("seconds kept: {event} in {state:?}");
            places.push(place(name, move |seen| {
                seen.event().is_some_and(|(neighbour, happens)| {
                    happens == event && neighbour.state == state && are_apart(neighbour)
                })
            }));
        }
    }
    places.push(place("seconds gone: Remove", |seen| {
        let Call::Remove { address } = seen.step.call else {
            return false;
        };
        let neighbours = &seen.before.state.neighbours;
        let slot = seen.before.state.find(address);
        seen.gives(0) && slot.is_some_and(|slot| has_all_five(neighbours[slot].seconds))
    }));
    places.push(place("seconds gone: added again", |seen| {
        seen.gives(0) && seen.step.aim == ADDED_AGAIN
    }));
    places
}

/// Decimals of every length, the lines' order, and the longest listing.
fn seconds_listed() -> Vec<Place> {
    /// Whether a listing that is carried out has such a neighbour.
    fn lists(seen: &Seen, is_wanted: impl Fn(&Neighbour) -> bool) -> bool {
        let mut neighbours = seen.before.state.neighbours.iter();
        matches!(seen.step.call, Call::Listing { .. })
            && seen.gives(0)
            && neighbours.any(|n| n.is_used() && is_wanted(n))
    }
    let mut places = Vec::new();
    for count in DIGIT_EDGES {
        places.push(place(format!("listing: seconds {count}"), move |seen| {
            lists(seen, |n| n.seconds.all().contains(&count))
        }));
    }
    for state in NeighbourState::ALL {
        let name = format!("listing: all 4,294,967,295 in {state:?}");
        places.push(place(name, move |seen| {
            lists(seen, |n| {
                n.seconds == material::all_in(state, Seconds::MOST)
            })
        }));
    }
    places.push(place("listing: seconds apart, with rows", |seen| {
        lists(seen, |n| are_apart(n) && n.row_count > 0)
    }));
    places.push(place("listing: 59,581 octets", |seen| {
        matches!(seen.step.call, Call::Listing { .. }) && seen.record.lengths.0 == 59_581
    }));
    places
}

// Home lists.

/// The ways in which a home list is bad.
fn home_defects(state: &State, home: &[u32]) -> Vec<&'static str> {
    let numbers = home.chunks_exact(3);
    let mut found = Vec::new();
    if !numbers.remainder().is_empty() {
        found.push("not whole rows");
    }
    if home.len() / 3 > MOST_ROWS {
        found.push(match home.len() / 3 {
            129 => "129 rows",
            _ => "more than 129 rows",
        });
    }
    for (index, row) in numbers.map(Row::from_numbers).enumerate() {
        if Class::of(row.net).is_none() {
            found.push("net of no class");
        } else if !net::is_net(row.net) {
            found.push("net not left justified");
        }
        if !net::is_on(row.gateway, state.net) {
            found.push("gateway off the net");
        }
        if row.distance > 255 {
            found.push(match row.distance {
                256 => "number 256",
                _ => "number above 256",
            });
        }
        if index == 0 && row.gateway != state.address {
            found.push("first gateway not ours");
        }
    }
    found
}

fn home_lists() -> Vec<Place> {
    let mut places = Vec::new();
    for defect in [
        "not whole rows",
        "129 rows",
        "net of no class",
        "net not left justified",
        "gateway off the net",
        "number 256",
        "first gateway not ours",
    ] {
        places.push(place(format!("home list: {defect}"), move |seen| {
            let Call::Message { home, .. } = &seen.step.call else {
                return false;
            };
            seen.gives(4) && home_defects(seen.before.state, home) == [defect]
        }));
    }
    for rows in [0, 1, MOST_ROWS] {
        places.push(place(
            format!("home list: good, rows {rows}"),
            move |seen| {
                let Call::Message { home, .. } = &seen.step.call else {
                    return false;
                };
                home.len() == 3 * rows && !(1..=4).contains(&seen.record.answer.number())
            },
        ));
    }
    places
}

// Reading and writing alone.

fn readings() -> Vec<Place> {
    /// A message read with a bad common net: its octets and that net.
    fn bad_net<'a>(seen: &Seen<'a>, has_class: bool) -> Option<(&'a [u8], u32)> {
        let Call::Read { octets, net } = &seen.step.call else {
            return None;
        };
        let wanted = !net::is_net(*net) && Class::of(*net).is_some() == has_class;
        wanted.then_some((octets, *net))
    }
    let other_kind =
        |has_class: bool| move |seen: &Seen| bad_net(seen, has_class).is_some() && seen.gives(0);
    vec![
        place("Read: Update on a net not left justified", |seen| {
            // With the net left justified on both sides it would be good.
            seen.gives(14)
                && bad_net(seen, true).is_some_and(|(octets, net)| {
                    let mask = Class::of(net).map_or(0, Class::net_mask);
                    let mut mended = octets.to_vec();
                    mended[12..16].copy_from_slice(&(net & mask).to_be_bytes());
                    octets[12..16] == net.to_be_bytes()
                        && message::read_rows(&mended, net & mask).is_ok()
                })
        }),
        place("Read: Update on a net of no class", |seen| {
            // Without blocks there is nothing else to find fault with.
            seen.gives(14)
                && bad_net(seen, false).is_some_and(|(octets, net)| {
                    octets[12..] == net.to_be_bytes() && octets[10..12] == [0, 0]
                })
        }),
        place("Read: other kind, net not left justified", other_kind(true)),
        place("Read: other kind, net of no class", other_kind(false)),
    ]
}

fn writings() -> Vec<Place> {
    /// What is written: the meaning, and how many loose numbers stand beside it.
    fn written<'a>(seen: &Seen<'a>) -> Option<(&'a message::Message, usize)> {
        match &seen.step.call {
            Call::Write { message, loose, .. } if seen.gives(16) => Some((message, loose.len())),
            _ => None,
        }
    }
    let beside = |is_update: bool, is_rows: bool| {
        move |seen: &Seen| {
            written(seen).is_some_and(|(message, loose)| {
                loose > 0
                    && (loose % 3 == 0) == is_rows
                    && matches!(message.body, Body::Update { .. }) == is_update
                    && message::can_write(message)
            })
        }
    };
    let status_255 = |kinds: &'static [Kind], are_these: bool| {
        move |seen: &Seen| {
            written(seen).is_some_and(|(message, loose)| {
                let good = message::Message {
                    status: 0,
                    ..message.clone()
                };
                message.status == 255
                    && kinds.contains(&message.kind()) == are_these
                    && loose == 0
                    && message::can_write(&good)
            })
        }
    };
    const UNSOLICITED: &[Kind] = &[Kind::Update, Kind::Error];
    vec![
        place(
            "Write: rows beside a kind without rows",
            beside(false, true),
        ),
        place(
            "Write: numbers beside a kind without rows",
            beside(false, false),
        ),
        place(
            "Write: numbers after the rows of an Update",
            beside(true, false),
        ),
        place(
            "Write: status 255, Update or Error",
            status_255(UNSOLICITED, true),
        ),
        place(
            "Write: status 255, other kind",
            status_255(UNSOLICITED, false),
        ),
    ]
}
