//! The listing (01, "The listing"; 02, L7).

mod common;

use common::*;
use reference::call::Call;
use reference::neighbour::{Mode, Neighbour, Seconds};
use reference::net::address;

/// The whole listing of case U, as 01 has it, with 02's five lines: "all 0 in case U".
const CASE_U_LISTING: &str = "\
neighbours=1
slot=0
addr=128.9.0.5
as=7
state=up
mode=active
rows=2
sidle=0
sacq=0
sdown=0
sup=0
scease=0
net=10.0.0.0
gw=128.9.0.5
dist=0
side=int
net=192.5.6.0
gw=128.9.0.5
dist=0
side=int
";

#[test]
fn listing_of_case_u() {
    let mut gateway = Gateway::with(Neighbour {
        send_sequence: 1,
        row_count: 0,
        seconds: Seconds::default(),
        ..in_state(Up, Mode::Active)
    });
    gateway.run(Call::Remove { address: P });
    assert_eq!(gateway.message(&hex(CASE_U)), got(0, &[]));
    let before = gateway.bench.clone();
    assert_eq!(gateway.listing(), Ok(CASE_U_LISTING.to_string()));
    assert_eq!(gateway.bench, before);
    assert_eq!(CASE_U_LISTING.len(), 153 + 38);
}

/// By calls, which take 96 seconds in Down.
#[test]
fn listing_of_case_u_by_calls() {
    let mut gateway = Gateway::new(1);
    gateway.run(Call::Remove { address: P });
    gateway.message(&request(0, 0, 30, 120));
    for _ in 0..3 {
        gateway.message(&peer(I_H_U, 1, 0, &[]));
        for _ in 0..32 {
            gateway.tick();
        }
    }
    assert_eq!(gateway.message(&hex(CASE_U)), got(0, &[]));
    let expected = CASE_U_LISTING.replace("sdown=0", "sdown=96");
    assert_eq!(gateway.listing(), Ok(expected));
}

/// "Five lines after `rows`", in this order, decimals without leading zeros.
#[test]
fn seconds_follow_the_row_count() {
    let listed = |state, seconds| {
        let mut gateway = Gateway::with(Neighbour {
            seconds,
            ..in_state(state, Mode::Active)
        });
        gateway.listing().expect("listed")
    };
    let lines = "\nsidle=11\nsacq=12\nsdown=13\nsup=14\nscease=15\n";
    for state in [Idle, Acquisition, Down, Cease] {
        let text = listed(state, SECONDS);
        assert!(text.contains(&format!("\nrows=0{lines}slot=1\n")));
    }
    assert!(listed(Up, SECONDS).contains(&format!("\nrows=2{lines}net=11.0.0.0\n")));
    let none = "\nsidle=0\nsacq=0\nsdown=0\nsup=0\nscease=0\n";
    assert_eq!(listed(Up, Seconds::default()).matches(none).count(), 2);
    for (state, name) in [
        (Idle, "sidle"),
        (Acquisition, "sacq"),
        (Down, "sdown"),
        (Up, "sup"),
        (Cease, "scease"),
    ] {
        for count in [1, 9, 10, 65_536, 999_999_999, 1_000_000_000, 4_294_967_295] {
            let mut seconds = Seconds::default();
            *seconds.of_mut(state) = count;
            let expected = none.replace(&format!("{name}=0"), &format!("{name}={count}"));
            assert_eq!(listed(Idle, seconds).matches(&expected).count(), 1);
        }
    }
}

#[test]
fn nothing_to_list() {
    let mut gateway = Gateway::new(1);
    gateway.run(Call::Remove { address: P });
    gateway.run(Call::Remove { address: N });
    assert_eq!(gateway.listing(), Ok("neighbours=0\n".to_string()));
}

#[test]
fn used_slots_in_order_with_holes() {
    let mut gateway = Gateway::new(1);
    gateway.run(Call::Remove { address: N });
    let neighbours = &mut gateway.bench.state.neighbours;
    neighbours[3] = Neighbour {
        address: address(224, 0, 0, 1),
        as_number: 65_535,
        ..in_state(Cease, Mode::None)
    };
    neighbours[5] = Neighbour {
        address: u32::MAX,
        ..in_state(Down, Mode::Passive)
    };
    neighbours[7] = Neighbour {
        address: 1,
        ..in_state(Acquisition, Mode::None)
    };
    let expected = "neighbours=4\n\
        slot=1\naddr=128.9.0.6\nas=7\nstate=idle\nmode=none\nrows=0\nNONE\
        slot=3\naddr=224.0.0.1\nas=65535\nstate=cease\nmode=none\nrows=0\nSOME\
        slot=5\naddr=255.255.255.255\nas=7\nstate=down\nmode=passive\nrows=0\nSOME\
        slot=7\naddr=0.0.0.1\nas=7\nstate=acquisition\nmode=none\nrows=0\nSOME"
        .replace("NONE", "sidle=0\nsacq=0\nsdown=0\nsup=0\nscease=0\n")
        .replace("SOME", "sidle=11\nsacq=12\nsdown=13\nsup=14\nscease=15\n");
    assert_eq!(gateway.listing(), Ok(expected));
}

#[test]
fn sides_and_distances() {
    let mut gateway = Gateway::with(Neighbour {
        row_count: 4,
        ..in_state(Up, Mode::Passive)
    });
    for (row, distance) in [255, 256, 257, 511].into_iter().enumerate() {
        gateway.bench.table[3 * row..][..3].copy_from_slice(&[0, u32::MAX, distance]);
    }
    // Not used, so not listed.
    gateway.bench.table[3 * 4] = 9;
    let listing = gateway.listing().expect("listed");
    let rows: String = [("255", "int"), ("0", "ext"), ("1", "ext"), ("255", "ext")]
        .map(|(dist, side)| format!("net=0.0.0.0\ngw=255.255.255.255\ndist={dist}\nside={side}\n"))
        .concat();
    assert!(listing.contains(&format!("scease=15\n{rows}slot=1\n")));
}

/// Reading B85's bound: of the five counts one has nine digits at most, the others ten.
#[test]
fn b85_the_longest_listing() {
    let mut gateway = Gateway::new(1);
    for slot in 0..8u32 {
        let mut seconds = Seconds {
            idle: 1_000_000_000,
            acquisition: 1_000_000_000,
            down: 1_000_000_000,
            up: 1_000_000_000,
            cease: 1_000_000_000,
        };
        let short = [Idle, Acquisition, Down, Up, Cease][slot as usize % 5];
        *seconds.of_mut(short) = 294_967_295;
        gateway.bench.state.neighbours[slot as usize] = Neighbour {
            address: address(255, 255, 255, 100) + slot,
            as_number: 65_535,
            row_count: 128,
            seconds,
            ..in_state(Up, Mode::Passive)
        };
    }
    for numbers in gateway.bench.table.chunks_mut(3) {
        numbers.copy_from_slice(&[u32::MAX, u32::MAX, 511]);
    }
    let listing = gateway.listing().expect("listed");
    assert_eq!(listing.len(), 59_581);
    assert_eq!(listing.matches("side=ext\n").count(), 1024);
}
