//! The layer for a host in C: each answer by the octets and lengths handed over, and every octet
//! that is left.

mod common;

use common::*;
use reference::call::CallKind::{self, *};
use reference::host::{self, HostCall, Lent, TABLE};
use reference::record;
use reference::update::Row;

/// A call on N in this state, with all that its kind takes.
fn call(kind: CallKind, neighbour: reference::neighbour::Neighbour) -> HostCall {
    let gateway = Gateway::with(neighbour);
    let mut call = HostCall::bare(kind);
    let least = host::least_buffer(kind);
    call.address = N;
    if host::takes(kind, host::Part::Block) {
        call.lent.block = record::state_block(gateway.state());
    }
    if host::takes(kind, host::Part::Table) {
        call.lent.table = host::octets_of(&gateway.bench.table);
    }
    if host::takes(kind, host::Part::Buffer) {
        call.lent.buffer = vec![FILL; least];
    }
    call
}

fn up() -> reference::neighbour::Neighbour {
    in_state(Up, reference::neighbour::Mode::Active)
}

fn answer(call: &HostCall) -> u8 {
    host::answer(call.make().0)
}

/// A refusal with this number: no length, no octet changed.
fn assert_refused(call: &HostCall, number: u8) {
    assert_eq!(call.make(), (u64::from(number), call.lent.clone()));
}

fn fresh_over(block: Vec<u8>) -> HostCall {
    let mut fresh = HostCall::bare(Fresh);
    fresh.as_number = OWN_AS;
    fresh.address = OWN;
    fresh.capability = 1;
    fresh.net = NET;
    fresh.lent.block = block;
    fresh
}

const WITH_BLOCK: [CallKind; 8] = [Fresh, Add, Remove, Start, Stop, Tick, Message, Listing];
const WITH_TABLE: [CallKind; 5] = [Start, Stop, Tick, Message, Listing];

#[test]
fn fresh_writes_the_whole_block() {
    let (result, after) = fresh_over(vec![0xEE; 404]).make();
    assert_eq!(result, 0);
    assert_eq!(
        after.block[..12],
        hex("00 09 80 09 00 01 01 80 09 00 00 00")
    );
    assert!(after.block[12..].iter().all(|octet| *octet == 0));
    let mut quiet = fresh_over(vec![0xEE; 404]);
    quiet.quiet = 1;
    let (result, after) = quiet.make();
    assert_eq!(result, 0);
    assert_eq!(
        after.block[..12],
        hex("00 09 80 09 00 01 01 80 09 00 00 01")
    );
    assert!(after.block[12..].iter().all(|octet| *octet == 0));
}

#[test]
fn a_refused_fresh_touches_no_octet() {
    let good = fresh_over(vec![0xEE; 404]);
    let spoils: [fn(&mut HostCall); 7] = [
        |call| call.as_number = 0,
        |call| call.capability = 3,
        |call| call.net |= 1,
        |call| (call.net, call.address) = (0xE000_0000, 0xE000_0001),
        |call| call.address = 1,
        |call| call.quiet = 2,
        |call| call.quiet = 255,
    ];
    for spoil in spoils {
        let mut bad = good.clone();
        spoil(&mut bad);
        assert_refused(&bad, 16);
        bad.lent.block.pop();
        assert_refused(&bad, 20);
    }
}

#[test]
fn twenty_comes_first() {
    for kind in WITH_BLOCK {
        // 243 octets had the block before it had `quiet` (02, L6), 244 before it had seconds (L7);
        // 148 and 660 are 404 in eight bits.
        for length in [0, 1, 148, 227, 243, 244, 403, 405, 660, 65_536 + 404] {
            let mut call = call(kind, up());
            call.lent.block.resize(length, 0);
            call.lent.table.clear();
            call.lent.buffer.clear();
            call.rows = vec![1];
            assert_refused(&call, 20);
        }
    }
}

#[test]
fn numbers_of_no_state_and_no_mode_give_1() {
    for kind in WITH_BLOCK.into_iter().filter(|kind| *kind != Fresh) {
        for slot in 0..8 {
            for (at, code) in [(22, 5), (22, 255), (23, 3), (23, 255)] {
                let mut call = call(kind, up());
                call.lent.block[12 + 49 * slot + at] = code;
                call.lent.table.clear();
                assert_refused(&call, 1);
            }
        }
    }
}

/// Hello's comes first; the seconds alone stand behind them.
#[test]
fn counts_above_120_give_1() {
    for slot in 0..8 {
        for at in [27, 28] {
            let mut call = call(Tick, up());
            let octet = 12 + 49 * slot + at;
            call.lent.block[octet] = 121;
            assert_refused(&call, 1);
            // Nor has Idle or a free slot any.
            call.lent.block[octet] = 1;
            assert_eq!(answer(&call), u8::from(slot > 0));
        }
    }
}

/// Five counts of four octets end each slot's part: idle, acquisition, down, up, cease. A tick adds
/// one to that of the state before it, and its octets carry.
#[test]
fn a_tick_is_counted_in_its_octets() {
    use reference::neighbour::Mode;
    for (index, state) in [Idle, Acquisition, Down, Up, Cease].into_iter().enumerate() {
        for (count, later) in [
            ([0, 0, 0, 0], [0, 0, 0, 1]),
            ([0, 0, 0, 255], [0, 0, 1, 0]),
            ([0, 0, 255, 255], [0, 1, 0, 0]),
            ([0, 255, 255, 255], [1, 0, 0, 0]),
            ([255, 255, 255, 200], [255, 255, 255, 201]),
        ] {
            let mut call = call(Tick, in_state(state, Mode::Active));
            // Nothing else but three timers and two counts of ticks changes.
            call.lent.block[12 + 29..12 + 49].copy_from_slice(&[0; 20]);
            let at = 12 + 29 + 4 * index;
            call.lent.block[at..at + 4].copy_from_slice(&count);
            let (result, after) = call.make();
            assert_eq!(result, 0);
            let mut expected = [0; 20];
            expected[4 * index..][..4].copy_from_slice(&later);
            assert_eq!(after.block[12 + 29..12 + 49], expected);
            assert_eq!(after.block[12 + 49..], call.lent.block[12 + 49..]);
        }
    }
}

/// In every slot, the last of which lie beyond octet 255.
#[test]
fn a_full_sum_gives_22_and_one_more_gives_1() {
    for slot in 0..8 {
        let mut call = call(Tick, up());
        let neighbour = call.lent.block[12..12 + 49].to_vec();
        call.lent.block[12..].fill(0);
        let at = 12 + 49 * slot;
        call.lent.block[at..at + 49].copy_from_slice(&neighbour);
        let mut seconds = |octets: &str| {
            call.lent.block[at + 29..at + 49].copy_from_slice(&hex(octets));
            call.clone()
        };
        let zero = "00 00 00 00 ";
        let full = seconds(&(zero.repeat(2) + "FF FF FF F0 00 00 00 0B 00 00 00 04"));
        assert_refused(&full, 22);
        let mut start = full.clone();
        start.kind = Start;
        assert_eq!(answer(&start), 0);
        let one_less = seconds(&(zero.repeat(2) + "FF FF FF F0 00 00 00 0B 00 00 00 03"));
        assert_eq!(answer(&one_less), 0);
        let one_more = seconds(&(zero.repeat(2) + "FF FF FF F0 00 00 00 0B 00 00 00 05"));
        assert_refused(&one_more, 1);
        let wrapped = seconds(&("00 00 00 01 ".to_string() + &zero.repeat(3) + "FF FF FF FF"));
        assert_refused(&wrapped, 1);
        let mut short = full;
        short.lent.buffer.pop();
        assert_refused(&short, 3);
        short.lent.buffer.push(FILL);
        short.address = 77;
        assert_refused(&short, 5);
    }
}

#[test]
fn seconds_of_nobody_give_1() {
    for slot in 2..8 {
        for octet in 29..49 {
            let mut call = call(Listing, up());
            call.lent.block[12 + 49 * slot + octet] = 1;
            assert_refused(&call, 1);
        }
    }
}

/// They are left by what goes to Idle, and gone with the neighbour.
#[test]
fn seconds_stay_in_idle_and_go_with_the_neighbour() {
    let mut stop = call(Stop, in_state(Cease, reference::neighbour::Mode::None));
    let counts = stop.lent.block[12 + 29..12 + 49].to_vec();
    assert_eq!(
        counts,
        [0, 0, 0, 11, 0, 0, 0, 12, 0, 0, 0, 13, 0, 0, 0, 14, 0, 0, 0, 15]
    );
    let (result, after) = stop.make();
    assert_eq!((result, after.block[12 + 22]), (0, 0));
    assert_eq!(after.block[12 + 29..12 + 49], counts);
    stop.kind = Remove;
    stop.lent = Lent {
        block: after.block,
        ..Lent::default()
    };
    let (result, after) = stop.make();
    assert_eq!(result, 0);
    assert_eq!(after.block[12..12 + 49], [0; 49]);
    stop.kind = Add;
    stop.as_number = PEER_AS;
    stop.lent.block = after.block;
    let (result, after) = stop.make();
    assert_eq!(result, 0);
    assert_eq!(after.block[12..18], hex("80 09 00 05 00 07"));
    assert_eq!(after.block[18..12 + 49], [0; 43]);
}

/// Its octet ends the settings.
#[test]
fn quiet_above_1_gives_1() {
    for kind in WITH_BLOCK.into_iter().filter(|kind| *kind != Fresh) {
        for quiet in [2, 3, 255] {
            let mut call = call(kind, up());
            call.lent.block[11] = quiet;
            call.lent.table.clear();
            assert_refused(&call, 1);
        }
    }
}

/// The setting is the block's own: a stray message is answered by it, and leaves every octet.
#[test]
fn a_stray_leaves_the_block() {
    for quiet in [0, 1] {
        let mut call = call(Message, in_state(Idle, reference::neighbour::Mode::None));
        call.octets = peer(POLL, 1, 9, &[0, 0, 128, 9, 0, 0]);
        call.lent.block[11] = quiet;
        let (result, after) = call.make();
        let length = [10, 0][usize::from(quiet)];
        assert_eq!(result, (length as u64) << 16);
        assert_eq!(after.buffer[..length], stray_cease()[..length]);
        assert!(after.buffer[length..].iter().all(|octet| *octet == FILL));
        assert_eq!(after.block, call.lent.block);
        assert_eq!(after.table, call.lent.table);
    }
}

#[test]
fn a_too_quick_hello_leaves_the_block() {
    let mut call = call(Message, up());
    call.octets = peer(HELLO, 1, 9, &[]);
    let (result, after) = call.make();
    assert_eq!(host::answer(result), 0);
    assert_eq!(call.lent.block[12 + 27..12 + 29], [SINCE_HELLO, SINCE_POLL]);
    assert_eq!(after.block[12 + 27..12 + 29], [0, SINCE_POLL]);
    call.lent.block = after.block;
    let (result, after) = call.make();
    assert_eq!(result, 24 << 16 | 21);
    assert_eq!(after.buffer[..24], our_error(1, 9, 4, &call.octets));
    assert_eq!(after.block, call.lent.block);
}

#[test]
fn a_table_of_another_length_gives_2() {
    for kind in WITH_TABLE {
        for length in [0, 3_072, 12_284, 12_287, 12_289, 12_292, 65_536 + TABLE] {
            let mut call = call(kind, up());
            call.lent.table.resize(length, 0);
            call.lent.buffer.clear();
            assert_refused(&call, 2);
        }
    }
}

#[test]
fn a_short_buffer_gives_3() {
    for (kind, least) in [
        (Start, 2_048),
        (Stop, 2_048),
        (Tick, 2_048),
        (Message, 2_048),
        (Listing, 65_536),
        (Read, 1_560),
        (Write, 2_048),
    ] {
        let mut call = call(kind, up());
        call.lent.buffer.truncate(least - 1);
        call.rows = vec![1];
        assert_refused(&call, 3);
        call.lent.buffer.push(FILL);
        assert_ne!(answer(&call), 3);
    }
}

#[test]
fn a_home_list_has_twelve_octets_a_row() {
    let row = Row {
        net: NET,
        gateway: OWN,
        distance: 1,
    };
    for (count, cut, number) in [
        (0, 0, 0),
        (1, 0, 0),
        (1, 1, 4),
        (1, 11, 4),
        (2, 11, 4),
        (2, 8, 4),
        (128, 0, 0),
        (128, 1, 4),
        (129, 11, 4),
        (129, 0, 4),
    ] {
        let mut call = call(Message, up());
        call.octets = peer(HELLO, 1, 9, &[]);
        call.rows = host::row_octets(&vec![row; count]);
        call.rows.truncate(12 * count - cut);
        assert_eq!(answer(&call), number, "{count} rows less {cut} octets");
        if number == 4 {
            call.address = 77;
            assert_refused(&call, 4);
        }
    }
}

#[test]
fn the_lengths_stand_above_the_answer() {
    // In Down with three of four heard the next turn of t1 sends Hello and then Poll.
    let mut neighbour = in_state(Down, reference::neighbour::Mode::Active);
    neighbour.register = 0b0110;
    neighbour.heard = 1;
    neighbour.t1 = 1;
    let (result, after) = call(Tick, neighbour).make();
    assert_eq!(result, 16 << 32 | 10 << 16);
    assert_eq!(after.buffer[..10], our_hello(1, 4));
    assert_eq!(after.buffer[10..26], our_poll(5));
    assert!(after.buffer[26..].iter().all(|octet| *octet == FILL));
    assert_eq!(after.block[12 + 22], 3);
}

#[test]
fn a_refused_message_may_name_a_reply() {
    let mut call = call(Message, up());
    call.octets = peer((9, 9), 0, 1, &[]);
    let (result, after) = call.make();
    assert_eq!(result, 24 << 16 | 10);
    assert_eq!(after.buffer[..24], our_error(1, 5, 1, &call.octets));
    assert_eq!(after.block, call.lent.block);
    assert_eq!(after.table, call.lent.table);
}

#[test]
fn rows_are_written_in_the_slot_alone() {
    let mut call = call(Message, up());
    call.lent.table.fill(7);
    let rest = hex("01 00 80 09 00 00 00 05 01 00 02 0A C0 05 06");
    call.octets = peer(UPDATE, 1, 4, &rest);
    let (result, after) = call.make();
    assert_eq!(result, 0);
    let rows = hex("0A 00 00 00 80 09 00 05 00 00 00 00 C0 05 06 00 80 09 00 05 00 00 00 00");
    assert_eq!(after.table[..24], rows);
    assert!(after.table[24..1_536].iter().all(|octet| *octet == 0));
    assert!(after.table[1_536..].iter().all(|octet| *octet == 7));
    assert_eq!(after.block[12 + 20..12 + 22], [0, 2]);
}

#[test]
fn every_octet_of_a_block_is_read_and_written() {
    let state = {
        let mut gateway = Gateway::with(up());
        for slot in 2..8 {
            let mut neighbour = up();
            neighbour.address += 100 + slot as u32;
            gateway.bench.state.neighbours[slot] = neighbour;
        }
        gateway.bench.state
    };
    let block = record::state_block(&state);
    assert_eq!(host::read_block(&block), Ok(state));
    for at in 0..block.len() {
        let mut other = block.clone();
        other[at] ^= 1;
        let read = host::read_block(&other);
        assert_ne!(read, Ok(state), "octet {at}");
        if let Ok(read) = read {
            assert_eq!(record::state_block(&read), other, "octet {at}");
        }
    }
}

#[test]
fn reading_gives_meaning_and_rows() {
    let mut call = call(Read, up());
    call.net = NET;
    call.octets = hex(CASE_U);
    let (result, after) = call.make();
    assert_eq!(result, 24 << 32 | 24 << 16);
    assert_eq!(
        after.buffer[..24],
        hex("08 01 00 07 00 01 00 00 00 00 00 00 80 09 00 00 00 00 00 00 00 00 00 00")
    );
    let rows = hex("0A 00 00 00 80 09 00 05 00 00 00 00 C0 05 06 00 80 09 00 05 00 00 00 00");
    assert_eq!(after.buffer[24..48], rows);
    assert!(after.buffer[48..].iter().all(|octet| *octet == FILL));
    call.octets.pop();
    assert_refused(&call, 8);
}

/// Writing what reading gave.
fn writing_of(octets: &[u8]) -> HostCall {
    let mut reading = call(Read, up());
    reading.net = NET;
    reading.octets = octets.to_vec();
    let (result, Lent { buffer, .. }) = reading.make();
    assert_eq!(host::answer(result), 0);
    let mut writing = call(Write, up());
    writing.octets = buffer[..24].to_vec();
    writing.rows = buffer[24..][..(result >> 32) as usize].to_vec();
    writing
}

#[test]
fn what_is_read_is_written_again() {
    let mut error = hex("00 02");
    error.extend(1..=12);
    for octets in [
        request(0, 1, 30, 120),
        confirm(2, 2, 31, 121),
        peer(REFUSE, 3, 3, &[]),
        peer(CEASE, 4, 4, &[]),
        peer(CEASE_ACK, 0, 5, &[]),
        peer(HELLO, 1, 6, &[]),
        peer(I_H_U, 2, 7, &[]),
        poll(0, 8, 0x0102_0304),
        hex(CASE_U),
        peer(ERROR, 130, 10, &error),
    ] {
        let writing = writing_of(&octets);
        let (result, after) = writing.make();
        assert_eq!(result, (octets.len() as u64) << 16);
        assert_eq!(after.buffer[..octets.len()], octets);
        assert!(after.buffer[octets.len()..].iter().all(|o| *o == FILL));
        writing_refusals(&writing);
    }
}

/// A good writing, broken in each way that is not about the message itself.
fn writing_refusals(good: &HostCall) {
    let kind = good.octets[0];
    for length in [0, 1, 23, 25, 48] {
        let mut bad = good.clone();
        bad.octets.resize(length, 0);
        assert_refused(&bad, 16);
    }
    for number in [10, 11, 255] {
        let mut bad = good.clone();
        bad.octets[0] = number;
        assert_refused(&bad, 16);
    }
    for at in reference::generate::hosts::unused_octets(kind) {
        let mut bad = good.clone();
        bad.octets[at] = 1;
        assert_refused(&bad, 16);
    }
    for extra in [1, 11, 13] {
        let mut bad = good.clone();
        bad.rows.extend(vec![0; extra]);
        assert_refused(&bad, 16);
    }
    if kind != 8 {
        let mut bad = good.clone();
        bad.rows = hex("80 09 00 00 80 09 00 01 00 00 00 00");
        assert_refused(&bad, 16);
    }
}

#[test]
fn the_writer_takes_128_rows() {
    let mut writing = writing_of(&hex(CASE_U));
    let row = writing.rows[..12].to_vec();
    writing.rows = row.repeat(128);
    assert_eq!(answer(&writing), 0);
    writing.rows = row.repeat(129);
    assert_refused(&writing, 16);
}
