//! Damaged lines of a recording: each function gives a bad line, without its end.

use crate::net::dotted;
use crate::random::Random;
use crate::recording::{hex, MOST_OCTETS};

/// What a damaged line is made from.
pub struct Sound {
    /// A good line, without its end.
    pub line: String,
    /// An address, most often a neighbour's.
    pub address: u32,
    /// A good message.
    pub message: Vec<u8>,
}

impl Sound {
    fn dotted(&self) -> String {
        dotted(self.address)
    }

    /// A line of this key about the address.
    fn about(&self, key: &str, rest: &str) -> Vec<u8> {
        format!("{key}={}{rest}", self.dotted()).into_bytes()
    }

    /// The line with this instead of its address, or another line if it has none.
    fn with_address(&self, text: &str) -> Vec<u8> {
        let (address, line) = (self.dotted(), &self.line);
        if line.contains(&address) {
            line.replacen(&address, text, 1).into_bytes()
        } else {
            format!("start={text}").into_bytes()
        }
    }
}

/// A way to damage a line, by its name.
pub type LineFault = (&'static str, fn(&mut Random, &Sound) -> Vec<u8>);

pub const LINE_FAULTS: [LineFault; 35] = [
    ("blank at an end", blank_at_an_end),
    ("carriage return", carriage_return),
    ("empty line", empty_line),
    ("octet that belongs nowhere", stray_octet),
    ("octet above 127", octet_above_127),
    ("high bit set", high_bit),
    ("unknown key", unknown_key),
    ("head key among the events", head_key),
    ("quiet among the events", stray_quiet),
    ("no equals sign", no_equals_sign),
    ("two equals signs", two_equals_signs),
    ("nothing after the equals sign", no_value),
    ("address of three parts", three_parts),
    ("address of five parts", five_parts),
    ("address part above 255", large_part),
    ("address part with leading zeros", zeros_in_part),
    ("empty address part", empty_part),
    ("AS above 65,535", large_as),
    ("AS with leading zeros", zeros_before_as),
    ("no ticks", no_ticks),
    ("ticks above 86,400", many_ticks),
    ("ticks with leading zeros", zeros_before_ticks),
    ("not a plain number", no_number),
    ("no slash", no_slash),
    ("slash where none belongs", stray_slash),
    ("two slashes", two_slashes),
    ("lower-case hex", lower_case),
    ("no hex digit", no_hex_digit),
    ("odd number of digits", odd_digits),
    ("2,050 octets", octets_2050),
    ("2,049 octets and a digit", octets_2049_and_a_digit),
    ("long line of hex", long_hex),
    ("long end", long_end),
    ("good line behind a long beginning", long_beginning),
    ("two lines in one", two_lines_in_one),
];

/// Numbers that a 16, 32 or 64-bit count takes for a smaller one.
fn wrapped(random: &mut Random, number: u128) -> u128 {
    number + random.pick(&[1 << 16, 1 << 32, 1 << 64])
}

fn insert(random: &mut Random, line: &str, octet: u8) -> Vec<u8> {
    let mut octets = line.as_bytes().to_vec();
    octets.insert(random.below(octets.len() + 1), octet);
    octets
}

fn blank_at_an_end(random: &mut Random, sound: &Sound) -> Vec<u8> {
    let line = &sound.line;
    match random.below(3) {
        0 => format!(" {line}"),
        1 => format!("{line}\t"),
        _ => format!("{line} "),
    }
    .into_bytes()
}

fn carriage_return(_: &mut Random, sound: &Sound) -> Vec<u8> {
    format!("{}\r", sound.line).into_bytes()
}

fn empty_line(_: &mut Random, _: &Sound) -> Vec<u8> {
    Vec::new()
}

fn stray_octet(random: &mut Random, sound: &Sound) -> Vec<u8> {
    let octet = random.pick(b" \t\r\x00\x0B\x7F_,+-#");
    insert(random, &sound.line, octet)
}

fn octet_above_127(random: &mut Random, sound: &Sound) -> Vec<u8> {
    let octet = random.between(128, 255) as u8;
    insert(random, &sound.line, octet)
}

/// What a reader of seven bits would take for the good line.
fn high_bit(random: &mut Random, sound: &Sound) -> Vec<u8> {
    let mut octets = sound.line.as_bytes().to_vec();
    let place = random.below(octets.len());
    octets[place] |= 0x80;
    octets
}

fn unknown_key(random: &mut Random, sound: &Sound) -> Vec<u8> {
    match random.below(13) {
        0 => sound.about("drop", ""),
        1 => sound.about("at", ""),
        2 => sound.about("tx", &format!("/{}", hex(&sound.message))),
        3 => b"bad=5".to_vec(),
        4 => b"neighbours=1".to_vec(),
        5 => sound.about("RX", &format!("/{}", hex(&sound.message))),
        6 => sound.about("Start", ""),
        7 => sound.about("tic", "/1"),
        8 => sound.about("ticks", "/1"),
        9 => sound.about("", ""),
        10 => sound.dotted().into_bytes(),
        11 => format!("# {}", sound.line).into_bytes(),
        _ => vec![random.pick(b"=/.0Aarst")],
    }
}

fn head_key(random: &mut Random, sound: &Sound) -> Vec<u8> {
    match random.below(4) {
        0 => format!("ownas={}", random.number16()).into_bytes(),
        1 => sound.about("own", ""),
        2 => format!("cap={}", random.octet()).into_bytes(),
        _ => sound.about("net", ""),
    }
}

/// A line that would be no setting right after `net` either.
pub fn bad_quiet(random: &mut Random) -> Vec<u8> {
    let number = wrapped(random, 1);
    let nearest = random.pick(&["quiet=2", "quiet=01", "quiet="]);
    let line = random.pick(&[
        "quiet=3",
        "quiet=9",
        "quiet=10",
        "quiet=11",
        "quiet=255",
        "quiet=256",
        "quiet=257",
        "quiet=00",
        "quiet",
        "quiet1",
        "quiet==1",
        "quiet=1=",
        "quiet=1/",
        "quiet=/1",
        "quiet:1",
        "quiet=+1",
        "quiet=-0",
        "quiet=1 ",
        "quiet= 1",
        " quiet=1",
        "quiet =1",
        "quiet=1\r",
        "quiet=true",
        "quiet=\u{0661}",
        "Quiet=1",
        "QUIET=1",
        "quie=1",
        "quiets=1",
    ]);
    match random.below(10) {
        0 => format!("quiet={number}").into_bytes(),
        1 => b"quiet=\xB1".to_vec(),
        2 => format!("quiet={}1", "0".repeat(5000)).into_bytes(),
        3..=5 => nearest.into(),
        _ => line.into(),
    }
}

/// A `quiet` line that is good in another place, or in none.
pub fn stray_quiet(random: &mut Random, _: &Sound) -> Vec<u8> {
    match random.below(3) {
        0 => b"quiet=0".to_vec(),
        1 => b"quiet=1".to_vec(),
        _ => bad_quiet(random),
    }
}

fn no_equals_sign(_: &mut Random, sound: &Sound) -> Vec<u8> {
    sound.line.replace('=', "").into_bytes()
}

fn two_equals_signs(_: &mut Random, sound: &Sound) -> Vec<u8> {
    sound.line.replace('=', "==").into_bytes()
}

fn no_value(_: &mut Random, sound: &Sound) -> Vec<u8> {
    let key = sound.line.split('=').next().unwrap_or_default();
    format!("{key}=").into_bytes()
}

fn three_parts(random: &mut Random, sound: &Sound) -> Vec<u8> {
    let parts: Vec<String> = (0..3).map(|_| random.octet().to_string()).collect();
    sound.with_address(&parts.join("."))
}

fn five_parts(random: &mut Random, sound: &Sound) -> Vec<u8> {
    let address = sound.dotted();
    let text = match random.below(3) {
        0 => format!("{address}.0"),
        1 => format!("{address}."),
        _ => format!("0.{address}"),
    };
    sound.with_address(&text)
}

/// The address with one of its parts changed.
fn with_part(random: &mut Random, sound: &Sound, change: impl Fn(u8) -> String) -> Vec<u8> {
    let changed = random.below(4);
    let parts: Vec<String> = sound
        .address
        .to_be_bytes()
        .into_iter()
        .enumerate()
        .map(|(place, part)| match place == changed {
            true => change(part),
            false => part.to_string(),
        })
        .collect();
    sound.with_address(&parts.join("."))
}

fn large_part(random: &mut Random, sound: &Sound) -> Vec<u8> {
    let more = wrapped(random, 0);
    let more = random.pick(&[256, more]);
    match random.below(3) {
        0 => with_part(random, sound, |_| "256".to_string()),
        1 => with_part(random, sound, |_| "1000".to_string()),
        _ => with_part(random, sound, |part| (u128::from(part) + more).to_string()),
    }
}

fn zeros_in_part(random: &mut Random, sound: &Sound) -> Vec<u8> {
    let zeros = "0".repeat(random.pick(&[1, 1, 2, 4000]));
    with_part(random, sound, |part| format!("{zeros}{part}"))
}

fn empty_part(random: &mut Random, sound: &Sound) -> Vec<u8> {
    match random.below(3) {
        0 => sound.with_address("..."),
        1 => sound.with_address(""),
        _ => with_part(random, sound, |_| String::new()),
    }
}

fn large_as(random: &mut Random, sound: &Sound) -> Vec<u8> {
    let wrapped = wrapped(random, 7);
    let number = random.pick(&[65_536, 99_999, wrapped]);
    match random.below(10) {
        0 => sound.about("add", &format!("/{}", "7".repeat(5000))),
        _ => sound.about("add", &format!("/{number}")),
    }
}

fn zeros_before_as(random: &mut Random, sound: &Sound) -> Vec<u8> {
    let number = random.pick(&["07", "00", "000065535", "0000000000000000000000007"]);
    sound.about("add", &format!("/{number}"))
}

fn no_ticks(_: &mut Random, sound: &Sound) -> Vec<u8> {
    sound.about("tick", "/0")
}

fn many_ticks(random: &mut Random, sound: &Sound) -> Vec<u8> {
    let wrapped = wrapped(random, 30_000);
    let count = random.pick(&[86_401, 86_401, 99_999, 864_000, (1 << 17) + 1, wrapped]);
    sound.about("tick", &format!("/{count}"))
}

fn zeros_before_ticks(random: &mut Random, sound: &Sound) -> Vec<u8> {
    let count = random.pick(&["01", "00", "086400", "0000000000000000000000001"]);
    sound.about("tick", &format!("/{count}"))
}

fn no_number(random: &mut Random, sound: &Sound) -> Vec<u8> {
    let key = random.pick(&["add", "tick"]);
    let number = random.pick(&[
        "", "+7", "-7", "7.", "7.0", "0x7", "7h", "1e3", "1,000", "A", "\u{0667}", "\u{FF17}", "/",
        ":",
    ]);
    sound.about(key, &format!("/{number}"))
}

fn no_slash(random: &mut Random, sound: &Sound) -> Vec<u8> {
    match random.below(6) {
        0 => sound.about("add", ""),
        1 => sound.about("tick", ""),
        2 => sound.about("rx", ""),
        3 => sound.about("tick", ":1"),
        4 => sound.about("add", "\\7"),
        _ => sound.about("rx", &hex(&sound.message)),
    }
}

fn stray_slash(random: &mut Random, sound: &Sound) -> Vec<u8> {
    let key = random.pick(&["remove", "start", "stop"]);
    let rest = random.pick(&["/", "/1", "/7", "/02"]);
    sound.about(key, rest)
}

fn two_slashes(random: &mut Random, sound: &Sound) -> Vec<u8> {
    match random.below(4) {
        0 => sound.about("add", "//7"),
        1 => sound.about("add", "/7/"),
        2 => sound.about("tick", "//1"),
        _ => sound.about("rx", &format!("//{}", hex(&sound.message))),
    }
}

/// The line of a message with one of its digits changed.
fn with_digit(random: &mut Random, sound: &Sound, octet: u8) -> Vec<u8> {
    let digits = hex(&sound.message);
    let mut line = sound.about("rx", &format!("/{digits}"));
    let place = line.len() - digits.len() + random.below(digits.len());
    line[place] = octet;
    line
}

fn lower_case(random: &mut Random, sound: &Sound) -> Vec<u8> {
    let whole = hex(&sound.message).to_lowercase();
    let letter = random.pick(b"abcdef");
    match random.thousandths(300) && whole.contains(|digit: char| digit.is_ascii_lowercase()) {
        true => sound.about("rx", &format!("/{whole}")),
        false => with_digit(random, sound, letter),
    }
}

/// Among them the octets next to the digits.
fn no_hex_digit(random: &mut Random, sound: &Sound) -> Vec<u8> {
    let octet = random.pick(b"/:@G`gOo. x\x00\xFF");
    with_digit(random, sound, octet)
}

fn odd_digits(random: &mut Random, sound: &Sound) -> Vec<u8> {
    let digits = hex(&sound.message);
    let odd = match random.below(3) {
        0 => &digits[1..],
        1 => &digits[..digits.len() - 1],
        _ => &digits[..1],
    };
    sound.about("rx", &format!("/{odd}"))
}

/// A good message, then zeros: so many digits.
fn digits(sound: &Sound, count: usize) -> String {
    let mut digits = hex(&sound.message);
    while digits.len() < count {
        digits.push('0');
    }
    digits.truncate(count);
    digits
}

fn octets_2050(_: &mut Random, sound: &Sound) -> Vec<u8> {
    sound.about("rx", &format!("/{}", digits(sound, 2 * MOST_OCTETS + 2)))
}

fn octets_2049_and_a_digit(_: &mut Random, sound: &Sound) -> Vec<u8> {
    sound.about("rx", &format!("/{}", digits(sound, 2 * MOST_OCTETS + 1)))
}

fn long_hex(random: &mut Random, sound: &Sound) -> Vec<u8> {
    let mut line = sound.about("rx", &format!("/{}", digits(sound, 10_000)));
    line.truncate(random.pick(&[5_000, 5_001, 10_000]));
    line
}

/// A good line that goes on, so that the beginning alone would be good.
fn long_end(random: &mut Random, sound: &Sound) -> Vec<u8> {
    let mut line = sound.line.as_bytes().to_vec();
    let end = random.pick(b"0A .");
    line.resize(random.pick(&[5_000, 8_192, 10_000, 70_000]), end);
    line
}

/// A good line that ends a long one: what is left over of a long line is no line of its own.
fn long_beginning(random: &mut Random, sound: &Sound) -> Vec<u8> {
    let lengths = [
        256, 1024, 2048, 4096, 4097, 4098, 4116, 4117, 4118, 4119, 8192, 65_536,
    ];
    let mut line = sound.about("rx", "/");
    line.resize(random.pick(&lengths), b'0');
    line.extend(sound.line.as_bytes());
    line
}

fn two_lines_in_one(random: &mut Random, sound: &Sound) -> Vec<u8> {
    let between = random.pick(&["", " ", "\r", ";", "/", "\u{0}"]);
    let stop = dotted(sound.address);
    format!("{}{between}stop={stop}", sound.line).into_bytes()
}

/// A line of which some octets are changed, put in or left out. No rule is asked: it may be good
/// still, or have become two.
pub fn changed_at_random(random: &mut Random, line: &str) -> Vec<u8> {
    let mut octets = line.as_bytes().to_vec();
    for _ in 0..random.between(1, 3) {
        let place = random.below(octets.len() + 1);
        let octet = match random.below(3) {
            0 => random.octet(),
            _ => random.pick(b"0123456789ABCDEF./=\n"),
        };
        if place == octets.len() {
            octets.push(octet);
            continue;
        }
        match random.below(4) {
            0 => octets.insert(place, octet),
            1 => drop(octets.remove(place)),
            2 => octets.truncate(place),
            _ => octets[place] = octet,
        }
    }
    octets
}
