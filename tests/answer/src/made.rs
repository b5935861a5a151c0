//! Cases made here, with what the model prints: the edges of the files, the edges of the input, pipes, and random sets.

use std::time::Duration;

use generate::Set;
use generate::random::Random;
use generate::right::Right;
use model::forest::Parents;
use model::network::Network;

use crate::case::{Case, Entry, Feed};
use crate::printed::{MOST_READ, printed};

/// Every made case; the random ones are decided by the seed.
pub fn cases(seed: u64) -> Vec<Case> {
    let mut cases = files();
    cases.extend(inputs());
    cases.extend(pipes());
    cases.extend((0..RANDOM_SETS).map(|index| random(seed, index)));
    cases
}

const RANDOM_SETS: usize = 400;

fn case(note: &str, network: Entry, labels: Entry, input: impl Into<Vec<u8>>) -> Case {
    let input = input.into();
    Case {
        note: note.to_string(),
        expected: printed(&network, &labels, &input),
        network,
        labels,
        input,
        feed: Feed::Whole,
    }
}

/// Network A.
fn a() -> (Vec<u8>, Vec<u8>) {
    let set = generate::fixed::network_a().set();
    (set.network, set.labels)
}

fn changed(mut bytes: Vec<u8>, at: usize, to: u8) -> Entry {
    bytes[at] = to;
    Entry::File(bytes)
}

fn longer(mut bytes: Vec<u8>, length: usize) -> Vec<u8> {
    bytes.resize(length, 0);
    bytes
}

/// Junctions without roads, hung so that the right labels have exactly so many bytes, an even number.
fn empty_lists(bytes: usize) -> Set {
    let mut parents: Parents = Vec::new();
    let mut left = bytes - 16;
    // A junction at depth d takes its parent and d empty lists, 2 + 2d bytes, and can hang no deeper than the line that is there.
    let mut line = 0;
    while left > 0 {
        let depth = (left / 2 - 1).min(line);
        parents.push(depth.checked_sub(1));
        line += usize::from(depth == line);
        left -= 2 + 2 * depth;
    }
    let network = Network {
        junctions: parents.len(),
        identity: 77,
        roads: Vec::new(),
    };
    let set = Right::new(network, parents).set();
    assert_eq!(set.labels.len(), bytes);
    set
}

fn files() -> Vec<Case> {
    let (network, labels) = a();
    let net = || Entry::File(network.clone());
    let lab = || Entry::File(labels.clone());
    let bad_net = || changed(network.clone(), 0, b'X');
    let bad_lab = || changed(labels.clone(), 0, b'X');
    let long = |bytes: &[u8], length| Entry::File(longer(bytes.to_vec(), length));
    let over = MOST_READ + 1;
    let bad_long = |bytes: &[u8], length| changed(longer(bytes.to_vec(), length), 0, b'X');
    let none = || Entry::File(Vec::new());
    use Entry::{Directory, Missing};
    let mut cases = vec![
        case("network missing", Missing, lab(), "0 3 7\n"),
        case("labels missing", net(), Missing, "0 3 7\n"),
        case("both missing", Missing, Missing, "0 3 7\n"),
        case("network a directory", Directory, lab(), "0 3 7\n"),
        case("labels a directory", net(), Directory, "0 3 7\n"),
        case("bad network, labels missing", bad_net(), Missing, ""),
        case("bad network, labels a directory", bad_net(), Directory, ""),
        case("network missing, bad labels", Missing, bad_lab(), ""),
        case("network a directory, bad labels", Directory, bad_lab(), ""),
        case("network empty", none(), lab(), "0 3 7\n"),
        case("labels empty", net(), none(), "0 3 7\n"),
        case("network of 65,537 bytes", long(&network, over), lab(), ""),
        case("labels of 65,537 bytes", net(), long(&labels, over), ""),
        case(
            "network of 65,536 bytes, bad mark",
            bad_long(&network, MOST_READ),
            lab(),
            "",
        ),
        case(
            "network of 65,537 bytes, bad mark",
            bad_long(&network, over),
            lab(),
            "",
        ),
        case(
            "labels of 65,536 bytes, bad mark",
            net(),
            bad_long(&labels, MOST_READ),
            "",
        ),
        case(
            "labels of 65,537 bytes, bad mark",
            net(),
            bad_long(&labels, over),
            "",
        ),
        case(
            "bad network, labels of 65,537 bytes",
            bad_net(),
            long(&labels, over),
            "",
        ),
        case(
            "network of 65,537 bytes, bad labels",
            long(&network, over),
            bad_lab(),
            "",
        ),
    ];
    for bytes in [MOST_READ, MOST_READ + 2] {
        let set = empty_lists(bytes);
        cases.push(case(
            &format!("right labels of {bytes} bytes"),
            Entry::File(set.network),
            Entry::File(set.labels),
            "0 0 0\n1 0 9\n255 3 1\n0 254 4294967295\n",
        ));
    }
    cases
}

/// Lines of network A that stay within `bytes` bytes, the last one whole.
fn many_lines(bytes: usize) -> Vec<u8> {
    let mut input = Vec::new();
    for index in 0.. {
        let line = format!("{} {} {}\n", index % 5, index / 5 % 5, index / 25 % 15);
        if input.len() + line.len() > bytes {
            return input;
        }
        input.extend(line.bytes());
    }
    unreachable!("the lines reach any length")
}

fn inputs() -> Vec<Case> {
    let (network, labels) = a();
    let on_a = |note: &str, input: Vec<u8>| {
        let (network, labels) = (Entry::File(network.clone()), Entry::File(labels.clone()));
        case(note, network, labels, input)
    };
    let mut cases: Vec<Case> = TEXTS
        .iter()
        .map(|text| on_a(&format!("input {text:?}"), text.as_bytes().to_vec()))
        .collect();
    cases.push(on_a(
        "bytes that are no text",
        vec![0xff, b'\n', b'0', 0x80],
    ));
    cases.push(on_a("ten thousand lines", b"0 3 7\n".repeat(10_000)));
    cases.push(on_a("65,536 newlines", vec![b'\n'; MOST_READ]));
    cases.push(on_a("65,536 digits", vec![b'4'; MOST_READ]));
    let mut digits = vec![b'4'; 5_000];
    digits.extend(b" 0 0\n0 3 7\n");
    cases.push(on_a("5,000 digits for s", digits));
    // Every place of the last line, its newline too, is once the last to be read.
    for beyond in 0..=8 {
        let mut input = many_lines(MOST_READ - 16);
        let space = MOST_READ + beyond - 8 - input.len();
        input.extend(vec![b'x'; space - 1]);
        input.extend(b"\n0 3 12\n7");
        assert_eq!(input.len(), MOST_READ + beyond);
        cases.push(on_a(&format!("input {beyond} bytes too long"), input));
    }
    cases
}

/// Inputs on network A, around each rule of the query lines.
const TEXTS: [&str; 62] = [
    "",
    "\n",
    "\n\n",
    "x",
    "x\n\n",
    "x\n\n\n",
    "0 3 7",
    "0 3 7\n",
    "0 3 7\n\n",
    "\n0 3 7",
    "0 3 2\n0 3 7\n0 4 12",
    "0 3 2\n0 3 7\n0 4 12\n",
    "0 0 0\n",
    "4 4 4294967295\n",
    "0 4 4294967295\n",
    "0 4 4294967296\n",
    "0 4 4294967294\n",
    "0 4 9999999999\n",
    "0 4 42949672950\n",
    "0 4 18446744073709551616\n",
    "0 4 99999999999999999999999999\n",
    "4294967295 0 1\n",
    "4294967296 0 1\n",
    "0 4294967295 1\n",
    "0 4294967296 1\n",
    "4294967295 4294967295 4294967295\n",
    "5 0 9\n",
    "0 5 9\n",
    "5 5 9\n",
    "00 3 7\n",
    "0 03 7\n",
    "0 3 07\n",
    "0 3 00\n",
    "01 3 7\n",
    " 0 3 7\n",
    "0 3 7 \n",
    "0  3 7\n",
    "0 3  7\n",
    "0 3 7  \n",
    "0 3\n",
    "0 3 \n",
    "0\n",
    " \n",
    "   \n",
    "0 3 7 1\n",
    "0 3 7\r\n",
    "0 3 7\r\n0 3 7\n",
    "0\t3 7\n",
    "0 3\t7\n",
    "0 3 7\t\n",
    "0 3 7\0\n",
    "\0",
    "\0\n0 3 7\n",
    "+0 3 7\n",
    "0 -3 7\n",
    "0 3 7.0\n",
    "0,3,7\n",
    "0 3 0x7\n",
    "0 3 7e1\n",
    "0 3 a\n0 3 9\nb 3 9\n0 3 8",
    "０ 3 7\n",
    "0 3\u{a0}7\n",
];

fn pipes() -> Vec<Case> {
    let (network, labels) = a();
    let on_a = |note: &str, input: Vec<u8>, size, pause| {
        let (network, labels) = (Entry::File(network.clone()), Entry::File(labels.clone()));
        let feed = Feed::Pieces(size, Duration::from_millis(pause));
        Case {
            feed,
            ..case(note, network, labels, input)
        }
    };
    let few = b"0 3 2\n0 3 7\nx\n0 4 12".to_vec();
    let mut too_long = many_lines(MOST_READ - 4);
    too_long.extend(b"0 3 7\n0 3 7\n");
    vec![
        on_a("a pipe with nothing", Vec::new(), 1, 50),
        on_a("a pipe byte by byte", few.clone(), 1, 10),
        on_a("a pipe in pieces of 7", few.clone(), 7, 60),
        on_a("a slow pipe in two pieces", few, 10, 400),
        on_a(
            "a pipe of ten thousand lines",
            b"0 3 7\n".repeat(10_000),
            4_099,
            5,
        ),
        on_a("a pipe cut at 65,536 bytes", too_long.clone(), 1_021, 2),
        on_a(
            "a pipe cut at 65,536 bytes, at once",
            too_long,
            MOST_READ + 8,
            0,
        ),
    ]
}

/// A random set, right or damaged, small enough to be read, with lines good and bad.
fn random(seed: u64, index: usize) -> Case {
    // The first sets of a run are fixed and large; apart from them a set is decided by seed and index.
    let set = generate::set(seed, 1_000 + index);
    let mut random = Random::new(!seed, index as u64);
    let junctions = match set.network.get(6..8) {
        Some(bytes) => u32::from(bytes[0]).max(1),
        None => 4,
    };
    let mut input = Vec::new();
    for _ in 0..random.below(40) {
        let mut line: Vec<u8> = Vec::new();
        for place in 0..3 {
            let most = if place < 2 { junctions } else { 60 };
            let number = match random.below(20) {
                0 => u32::MAX,
                _ => random.between(0, most),
            };
            let space = if place < 2 { " " } else { "" };
            line.extend(format!("{number}{space}").bytes());
        }
        if random.one_in(8) {
            let at = random.below(line.len());
            line[at] = *random.pick(b"0123456789 -x\t\r\0");
        }
        input.extend(line);
        input.push(b'\n');
    }
    if random.one_in(3) {
        input.pop();
    }
    let note = format!("set {index} of seed {seed} ({})", set.note);
    case(
        &note,
        Entry::File(set.network),
        Entry::File(set.labels),
        input,
    )
}
