//! Newick texts at the limits of document 02, T-01, each with its byte place known by the way it is made.

/// A text, and its byte place where it has one.
pub type Case = (Vec<u8>, Option<usize>);

/// Nested to the left: ((..((0,1),2)..),k) with k brackets and k + 1 species.
pub fn ladder(k: usize) -> String {
    let outside: String = (2..=k).map(|species| format!(",{species})")).collect();
    format!("{}0,1){outside};", "(".repeat(k))
}

/// The species from one on and below another, in halves of halves.
pub fn halves(from: usize, to: usize) -> String {
    match to - from {
        1 => from.to_string(),
        more => format!("({},{})", halves(from, from + more / 2), halves(from + more / 2, to)),
    }
}

/// 63 open brackets.
fn brackets(cases: &mut Vec<Case>) {
    let mut case = |text: String, place| cases.push((text.into_bytes(), place));
    for k in [1, 2, 61, 62, 63, 64, 65, 200] {
        let deep = k > 63;
        let (opened, closed) = ("(".repeat(k), ")".repeat(k));
        case(format!("{opened}7{closed};"), deep.then_some(63));
        case(opened.clone(), Some(k.min(63)));
        case(format!("{opened}x"), Some(k.min(63)));
        case(format!("{}7{closed};", " (".repeat(k)), deep.then_some(2 * 63 + 1));
        case(format!("{}7{closed};", "( ".repeat(k)), deep.then_some(2 * 63));
        case(ladder(k), deep.then_some(63));
        let before: String = (0..k).map(|species| format!("({species},")).collect();
        let too_deep = before.match_indices('(').nth(63).map(|(place, _)| place);
        case(format!("{before}{k}{closed};"), too_deep);
    }
    // a bracket that is closed is not open any more
    let (opened, closed) = ("(".repeat(62), ")".repeat(62));
    case(format!("{opened}(0),(1),(2){closed};"), None);
    case(format!("{opened}(0),((1)){closed};"), Some(67));
    case(format!("{opened}(0,(1)){closed};"), Some(65));
    case(format!("({}0);", "(0),".repeat(62)), None);
}

/// 127 nodes. A bracket with 126 leaves has as many.
fn nodes(cases: &mut Vec<Case>) {
    let mut case = |text: String, place| cases.push((text.into_bytes(), place));
    for leaves in [125, 126, 127, 128, 300] {
        let more = leaves > 126;
        let before = "0,".repeat(leaves - 1);
        case(format!("({before}0);"), more.then_some(1 + 2 * 126));
        case(format!("({before}999);"), Some(1 + 2 * (leaves - 1).min(126) + if more { 0 } else { 2 }));
        case(format!("({before}"), Some(1 + 2 * (leaves - 1).min(126)));
        case(format!("({before}x"), Some(1 + 2 * (leaves - 1).min(126)));
        let spaced = " 0 :1.5 ,".repeat(leaves - 1);
        case(format!("({spaced} 0 ) ;"), more.then_some(2 + 9 * 126));
        let numbers: Vec<String> = (0..leaves).map(|k| (k % 255).to_string()).collect();
        let place = 1 + numbers.iter().take(126).map(|number| number.len() + 1).sum::<usize>();
        case(format!("({});", numbers.join(",")), more.then_some(place));
        // the last one is a bracket with a leaf, which is a node more
        case(format!("({before}(0));"), (leaves > 125).then_some(1 + 2 * 125 + if leaves == 126 { 1 } else { 2 }));
    }
    // 62 times a bracket and a leaf are 124 nodes under the whole
    let pairs = "(0),".repeat(62);
    case(format!("({pairs}0,0);"), None);
    case(format!("({pairs}(0));"), None);
    case(format!("({pairs}(0),0);"), Some(1 + 4 * 63));
    case(format!("({pairs}(0),(0));"), Some(1 + 4 * 63));
    case(format!("({pairs}0,(0));"), Some(1 + 4 * 62 + 3));
    case(format!("({pairs}0,0,"), Some(1 + 4 * 62 + 4));
    case(format!("({pairs}0,0,  "), Some(1 + 4 * 62 + 6));
    case(format!("({pairs}0,0,  0"), Some(1 + 4 * 62 + 6));
    // the whole tree of 64 species, 127 nodes in 63 brackets, and a species more
    case(ladder(63).replace(");", ",0);"), Some(ladder(63).len() - 1));
    case(ladder(63).replace(");", ":2,0);"), Some(ladder(63).len() + 1));
}

/// Species numbers up to 254; a length has no such limit.
fn numbers(cases: &mut Vec<Case>) {
    let mut case = |text: String, place| cases.push((text.into_bytes(), place));
    let larger = ["300", "999", "1000", "2540", "2549", "2550", "25400", "18446744073709551616"];
    for number in (0..=270).map(|number: usize| number.to_string()).chain(larger.map(String::from)) {
        let past = (1..=number.len()).find(|&digits| number[..digits].parse::<u128>().expect("a number") > 254);
        let place = past.map(|digits| digits - 1);
        case(format!("{number};"), place);
        case(number.clone(), place.or(Some(number.len())));
        case(format!("{number}x"), place.or(Some(number.len())));
        case(format!("(0, {number}:1);"), place.map(|place| place + 4));
        case(format!("0:{number};"), None);
        case(format!("0:1.{number};"), None);
    }
    for (text, place) in [("25 5;", 3), ("2 54;", 2), ("254 0;", 4), ("00;", 1), ("0254;", 1), ("25\n;5", 4)] {
        case(text.into(), Some(place));
    }
}

/// 4,096 bytes.
fn lengths(cases: &mut Vec<Case>) {
    for length in [4_000, 4_094, 4_095, 4_096, 4_097, 4_098, 5_000, 8_192, 65_536] {
        let over = (length > 4_096).then_some(4_096);
        let place = |place: usize| over.or(Some(place));
        // the pieces with the sign between them as often as it takes
        let mut case = |before: &str, sign: char, behind: &str, place| {
            let times = length - before.len() - behind.len();
            cases.push((format!("{before}{}{behind}", sign.to_string().repeat(times)).into_bytes(), place));
        };
        for blank in [' ', '\n', '\r'] {
            case("", blank, "((0,1),2);", over);
            case("((0,1)", blank, ",2);", over);
            case("((0,1),2)", blank, ";", over);
            case("((0,1),2);", blank, "", over);
            case("", blank, "", place(length));
            case("((0,1),2)", blank, "", place(length));
            case("((0,1),2);", blank, "x", place(length - 1));
            case("((0,1),2x", blank, ";", place(8));
        }
        case("0:", '0', ";", over);
        case("0:1.", '9', ";", over);
        case("0:", '0', "", place(length));
        case("0:1.", '9', " 5;", place(length - 2));
        case("x", ' ', "0;", place(0));
        case("", '(', "", place(63));
        case("1", '0', ";", place(3));
        case("\t", ' ', "0;", place(0));
        case("0;", '\0', "", place(2));
    }
}

/// All these texts.
pub fn cases() -> Vec<Case> {
    let mut cases = Vec::new();
    brackets(&mut cases);
    nodes(&mut cases);
    numbers(&mut cases);
    lengths(&mut cases);
    cases
}
