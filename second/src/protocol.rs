//! How trial ends: inputs that are cut, too long, or just not too long, each as a run of its own.

use crate::calls::{lines, Call, LONGEST, MOST_RECORDS, MOST_SETS};
use crate::inputs::Inputs;
use crate::programs::Feed;

/// Name, input, how it is fed, and what trial has to write.
type Case = (String, Vec<u8>, Feed, Vec<u8>);

/// One short call of each kind, with its line.
fn short_calls() -> Vec<(Call, &'static str)> {
    vec![
        (Call::Read { bytes: vec![1, 1, 0] }, "0 1 0 0\n"),
        (Call::List { bytes: vec![1, 3, 0], table: vec![9] }, "0 3 0 0 | 0\n"),
        (Call::Enter { n: 3, records: vec![[2, 0, 1]], table: vec![9] }, "0 3 7 | 2\n"),
        (Call::Order { n: 1, body: vec![255, 0], room: vec![9, 9] }, "0 1 | 255 0\n"),
        (Call::Build { n: 2, set: 2, table: vec![], room: vec![9, 9] }, "0 1 0 | 255 1\n"),
        (Call::Veto { n: 3, set: 7, table: vec![3], room: vec![9; 10] }, "0 4 1 | 255 255 0 0 0 1 0 2 9 9\n"),
        (Call::Check { n: 3, table: vec![0], body: vec![255, 2] }, "0\n"),
        // a list of 62 places would make a long call
        (
            Call::Loosen { n: 3, table: vec![8], body: vec![255, 2], room: vec![1, 2], list: vec![7, 7] },
            "9 | 1 2 | 7 7\n",
        ),
        (Call::Parse { n: 2, text: b"1:3;".to_vec(), room: vec![9, 9, 9] }, "0 1 | 255 1 9\n"),
        (Call::Render { n: 2, body: vec![255, 1], room: vec![9, 9, 9] }, "0 2 | 49 59 9\n"),
    ]
}

/// The runs with the outcome written out by hand.
fn by_hand() -> Vec<Case> {
    let mut cases: Vec<Case> = Vec::new();
    let mut case = |name: String, input: Vec<u8>, wrote: String| {
        cases.push((name, input, Feed::Whole, wrote.into_bytes()));
    };
    case("no input".into(), vec![], "".into());

    let (first, line) = short_calls().remove(0);
    for byte in [0, 10, b'R', b'X', b'y', 255] {
        case(format!("call byte {byte}"), vec![byte], "cut\n".into());
    }
    let after = [first.bytes(), vec![b'a'], first.bytes()].concat();
    case("call byte 97 between two calls".into(), after, format!("{line}cut\n"));

    for (call, whole) in short_calls() {
        let letter = call.letter();
        let bytes = call.bytes();
        case(format!("{letter}, whole"), bytes.clone(), whole.into());
        for place in 1..bytes.len() {
            // every other one after a call that is whole
            let (before, lines) = if place % 2 == 0 { (first.bytes(), line) } else { (vec![], "") };
            let input = [before, bytes[..place].to_vec()].concat();
            case(format!("{letter}, cut at {place}"), input, format!("{lines}cut\n"));
        }
    }

    // a length or a count one too large, all its bytes there, and a call behind it
    let longer = vec![0; LONGEST + 1];
    let records = vec![[0, 1, 2]; MOST_RECORDS + 1];
    let leaf = |table: &[u8], body: &[u8], room: &[u8], sets: usize| {
        let (table, body, room) = (table.to_vec(), body.to_vec(), room.to_vec());
        Call::Loosen { n: 3, table, body, room, list: vec![7; sets] }
    };
    let long = [
        ("r", Call::Read { bytes: longer.clone() }),
        ("l, first", Call::List { bytes: longer.clone(), table: vec![] }),
        ("l, table", Call::List { bytes: vec![1, 1, 0], table: longer.clone() }),
        ("e, count", Call::Enter { n: 3, records, table: vec![9] }),
        ("e, table", Call::Enter { n: 3, records: vec![], table: longer.clone() }),
        ("o, body", Call::Order { n: 3, body: longer.clone(), room: vec![] }),
        ("o, room", Call::Order { n: 3, body: vec![255, 0], room: longer.clone() }),
        ("b, table", Call::Build { n: 3, set: 7, table: longer.clone(), room: vec![] }),
        ("b, room", Call::Build { n: 3, set: 7, table: vec![0], room: longer.clone() }),
        ("v, table", Call::Veto { n: 3, set: 7, table: longer.clone(), room: vec![] }),
        ("v, room", Call::Veto { n: 3, set: 7, table: vec![0], room: longer.clone() }),
        ("c, table", Call::Check { n: 3, table: longer.clone(), body: vec![] }),
        ("c, body", Call::Check { n: 3, table: vec![0], body: longer.clone() }),
        ("x, table", leaf(&longer, &[255, 0], &[9, 9], 62)),
        ("x, body", leaf(&[0], &longer, &[9, 9], 62)),
        ("x, room", leaf(&[0], &[255, 0], &longer, 62)),
        ("x, list", leaf(&[0], &[255, 0], &[9, 9], MOST_SETS + 1)),
        ("x, empty but for the list", leaf(&[], &[], &[], MOST_SETS + 1)),
        ("n, text", Call::Parse { n: 3, text: longer.clone(), room: vec![] }),
        ("n, room", Call::Parse { n: 3, text: b"0;".to_vec(), room: longer.clone() }),
        ("w, body", Call::Render { n: 3, body: longer.clone(), room: vec![] }),
        ("w, room", Call::Render { n: 3, body: vec![255, 0], room: longer.clone() }),
    ];
    for (name, call) in long {
        let input = [first.bytes(), call.bytes(), first.bytes()].concat();
        case(format!("{name} one too long"), input, format!("{line}cut\n"));
    }
    for length in [LONGEST as u32 + 2, 0x0100_0000, 0x8000_0000, u32::MAX] {
        let input = [&b"r"[..], &length.to_be_bytes(), &[1, 1, 0]].concat();
        case(format!("r, length {length}"), input, "cut\n".into());
    }
    // 8,192 sets have 65,536 bytes; the count is a number of sets
    let no_list = leaf(&[0], &[255, 0], &[9, 9], 0).bytes();
    case("x, no list".into(), no_list.clone(), "9 | 9 9 |\n".into());
    for count in [MOST_SETS as u32 + 1, LONGEST as u32, 0x2000_0000, 0x8000_0000, u32::MAX] {
        let input = [&no_list[..no_list.len() - 4], &count.to_be_bytes(), &[0; 8]].concat();
        case(format!("x, count {count}"), input, "cut\n".into());
    }
    let (nines, sevens) = (" 9".repeat(LONGEST - 2), " 7".repeat(MOST_SETS));
    let whole = leaf(&[0], &[255, 0], &vec![9; LONGEST], MOST_SETS).bytes();
    case("x, whole, the longest room and list".into(), whole, format!("0 1 0 | 255 0{nines} |{sevens}\n"));
    cases
}

/// Calls with the longest slices and the longest list of records; this program says the lines.
fn longest() -> Vec<Case> {
    let mut good = vec![1, 1, 0];
    good.resize(LONGEST, 7);
    let nines = vec![9; LONGEST];
    let mut records = vec![[0, 1, 2], [2, 1, 0]];
    records.resize(MOST_RECORDS, [1, 0, 2]);
    let mut last_bad = records.clone();
    last_bad[MOST_RECORDS - 1] = [1, 0, 3];
    let sets: Vec<u64> = (0..MOST_SETS as u64).map(|k| k << (k % 50)).collect();
    let cherry = vec![255, 255, 0, 2, 0, 255, 2, 1, 2, 0];
    let calls = [
        Call::Read { bytes: good.clone() },
        Call::List { bytes: good, table: nines.clone() },
        Call::List { bytes: vec![1, 3, 0], table: nines.clone() },
        Call::Enter { n: 3, records, table: vec![9] },
        Call::Enter { n: 3, records: last_bad, table: vec![9] },
        Call::Enter { n: 64, records: vec![], table: nines.clone() },
        Call::Order { n: 3, body: nines.clone(), room: nines.clone() },
        Call::Order { n: 3, body: vec![255, 2], room: nines.clone() },
        Call::Build { n: 64, set: u64::MAX, table: nines.clone(), room: nines.clone() },
        Call::Build { n: 3, set: 7, table: vec![2], room: nines.clone() },
        Call::Build { n: 3, set: 8, table: vec![2], room: nines.clone() },
        Call::Veto { n: 64, set: u64::MAX, table: nines.clone(), room: nines.clone() },
        Call::Veto { n: 3, set: 7, table: vec![7], room: nines.clone() },
        Call::Check { n: 64, table: nines.clone(), body: nines.clone() },
        Call::Check { n: 3, table: vec![1], body: nines.clone() },
        Call::Loosen { n: 64, table: nines.clone(), body: nines.clone(), room: nines.clone(), list: sets.clone() },
        Call::Loosen { n: 3, table: vec![1], body: nines.clone(), room: nines.clone(), list: sets.clone() },
        Call::Loosen { n: 3, table: vec![0], body: cherry, room: nines.clone(), list: sets },
        Call::Parse { n: 3, text: vec![b' '; LONGEST], room: nines.clone() },
        Call::Parse { n: 3, text: b"(2,0);".to_vec(), room: nines.clone() },
        Call::Render { n: 3, body: nines.clone(), room: nines.clone() },
        Call::Render { n: 3, body: vec![255, 2], room: nines },
    ];
    calls
        .into_iter()
        .map(|call| {
            let input = call.bytes();
            let says = lines(&input);
            (format!("{}, 65,536 bytes, 21,845 records or 8,192 sets", call.letter()), input, Feed::Whole, says)
        })
        .collect()
}

/// "At once": input that goes on after a call that is cut does not keep trial waiting.
fn left_open() -> Vec<Case> {
    let (first, line) = short_calls().remove(0);
    let length = (LONGEST as u32 + 1).to_be_bytes();
    let count = [&b"e"[..], &3u64.to_be_bytes(), &(MOST_RECORDS as u32 + 1).to_be_bytes()].concat();
    let sets = [&b"x"[..], &3u64.to_be_bytes(), &[0; 12], &(MOST_SETS as u32 + 1).to_be_bytes()].concat();
    let cut = [
        ("call byte 121", b"y".to_vec()),
        ("r one too long", [&b"r"[..], &length].concat()),
        ("e, count one too large", count),
        ("x, count one too large", sets),
    ];
    cut.into_iter()
        .map(|(name, call)| {
            let input = [first.bytes(), call].concat();
            (format!("{name}, input left open"), input, Feed::Open, format!("{line}cut\n").into_bytes())
        })
        .collect()
}

/// Calls that arrive in small pieces.
fn in_pieces(seed: u64) -> Vec<Case> {
    let mut inputs = Inputs::new(seed);
    let mut cases = Vec::new();
    for most in [1, 2, 7, 40, 100] {
        let mut input = Vec::new();
        while input.len() < 60 * most {
            let call = inputs.call(0);
            if call.bytes().len() < 800 {
                call.put(&mut input);
            }
        }
        let pieces = inputs.pieces(input.len(), most);
        let says = lines(&input);
        cases.push((format!("pieces of up to {most} bytes"), input, Feed::Pieces(pieces), says));
    }
    cases
}

pub fn cases(seed: u64) -> Vec<Case> {
    let mut cases = by_hand();
    cases.extend(left_open());
    for (name, input, _, wrote) in &cases {
        assert_eq!(lines(input), *wrote, "this program and the outcome by hand: {name}");
    }
    cases.extend(longest());
    cases.extend(in_pieces(seed));
    cases
}
