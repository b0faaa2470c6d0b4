//! The chains of handlers that one poll can go through.
//!
//! What happens between two handlers cannot be seen from outside. This does no harm: the state before
//! and the state after a poll fix the chain. 5 after 0 or 3 comes through 2: if a wrapper leads to 4
//! or 7, the device leaves that state only in a later poll (L is then above 0). 3 after 4 or 7 comes
//! through 5, because 6 and 8 are entered with bytes left and so cannot go on to 3 at once. A handler
//! that enters 3 finds 13 bytes unread and goes no further. The stalls are also tested against the
//! chain.

/// Every chain with the answers that it can end with, by document 01 and the rulings. 2-5 and 2-5-3
/// are missing: no run stops in 2.
pub const ALL: &[(&str, &[u8])] = &[
    ("0", &[0, 1, 6, 7]),
    ("0-1", &[0]),
    ("0-4", &[0, 4, 6, 7]),
    ("0-7", &[0, 1, 6, 7]),
    ("0-2-5", &[0]),
    ("1", &[0]),
    ("3", &[0, 6, 7]),
    // 3 is left with nothing unread, so there is room for the packet: no 1.
    ("3-0", &[0, 6, 7]),
    ("3-0-1", &[0]),
    ("3-0-4", &[0, 4, 6, 7]),
    ("3-0-7", &[0, 1, 6, 7]),
    ("3-0-2-5", &[0]),
    ("4", &[0, 4, 6, 7]),
    ("4-5", &[0]),
    ("4-6", &[0, 6, 7]),
    ("4-5-3", &[0, 6, 7]),
    ("5", &[0]),
    ("5-3", &[0, 6, 7]),
    ("6", &[0, 6, 7]),
    ("6-3", &[0, 6, 7]),
    ("7", &[0, 1, 6, 7]),
    ("7-5", &[0]),
    ("7-8", &[0, 6, 7]),
    ("7-5-3", &[0, 6, 7]),
    ("8", &[0, 6, 7]),
    ("8-3", &[0, 6, 7]),
];

pub fn of_poll(before: u8, after: u8, stalls: &str) -> &'static str {
    let chain = match (before, after) {
        (0, 0) => "0",
        (0, 1) => "0-1",
        (0, 4) => "0-4",
        (0, 7) => "0-7",
        (0, 5) => "0-2-5",
        (1, 1) => "1",
        (3, 3) => "3",
        (3, 0) => "3-0",
        (3, 1) => "3-0-1",
        (3, 4) => "3-0-4",
        (3, 7) => "3-0-7",
        (3, 5) => "3-0-2-5",
        (4, 4) => "4",
        (4, 5) => "4-5",
        (4, 6) => "4-6",
        (4, 3) => "4-5-3",
        (5, 5) => "5",
        (5, 3) => "5-3",
        (6, 6) => "6",
        (6, 3) => "6-3",
        (7, 7) => "7",
        (7, 5) => "7-5",
        (7, 8) => "7-8",
        (7, 3) => "7-5-3",
        (8, 8) => "8",
        (8, 3) => "8-3",
        _ => panic!("LOUD: a poll went from state {before} to {after}"),
    };
    let expected = match (chain.starts_with("3-0"), after == 1) {
        (false, false) => "-",
        (false, true) => "S",
        (true, false) => "U",
        (true, true) => "US",
    };
    assert_eq!(
        stalls, expected,
        "LOUD: stalls that the chain {chain} has not"
    );
    chain
}

/// Whether a wrapper was parsed on the way.
pub fn parses(chain: &str) -> bool {
    chain.starts_with("0-") || chain.starts_with("3-0-")
}
