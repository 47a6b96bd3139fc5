//! The byte place of a short Newick text by brute force: the form of document 02, T-01, written out
//! as rules, and a search for derivations that knows the rules alone. The reader is held against it.

use std::sync::OnceLock;

/// The form. A word of one sign is that sign, a longer one a name. A species number is one of 0 to
/// 254: a digit that takes it further is a byte that no such text has there, so that its place is
/// found by the same search.
const FORM: [(&str, &str); 18] = [
    ("text", "blanks subtree blanks ; blanks"),
    ("subtree", "node"),
    ("subtree", "node blanks : blanks length"),
    ("node", "species"),
    ("node", "( blanks list blanks )"),
    ("list", "subtree"),
    ("list", "subtree blanks , blanks list"),
    ("species", "digit"),
    ("species", "from1to9 digit"),
    ("species", "1 digit digit"),
    ("species", "2 from0to4 digit"),
    ("species", "2 5 from0to4"),
    ("length", "digits"),
    ("length", "digits . digits"),
    ("digits", "digit"),
    ("digits", "digit digits"),
    ("blanks", ""),
    ("blanks", "blank blanks"),
];

/// Names for one of some signs.
const ONE_OF: [(&str, &str); 4] =
    [("digit", "0123456789"), ("from1to9", "123456789"), ("from0to4", "01234"), ("blank", " \n\r")];

/// The longest text that the search is asked about. It is too short for a bracket one too deep or a
/// node too many, which the rules do not know; longer ones take too long besides.
pub const LONGEST_SEARCHED: usize = 16;

#[derive(Clone, Copy, PartialEq, Eq)]
enum Part {
    Sign(u8),
    Name(usize),
}

struct Rule {
    left: usize,
    right: Vec<Part>,
}

struct Grammar {
    names: Vec<String>,
    rules: Vec<Rule>,
}

impl Grammar {
    fn new() -> Grammar {
        let mut grammar = Grammar { names: Vec::new(), rules: Vec::new() };
        for (left, right) in FORM {
            grammar.rule(left, right.split_whitespace().map(str::to_string).collect());
        }
        for (left, signs) in ONE_OF {
            for sign in signs.chars() {
                grammar.rule(left, vec![sign.to_string()]);
            }
        }
        assert!(grammar.every_name_derives(), "a name derives nothing");
        grammar
    }

    /// Does every name derive some string?
    fn every_name_derives(&self) -> bool {
        let mut derives = vec![false; self.names.len()];
        for _ in &self.names {
            for Rule { left, right } in &self.rules {
                let whole = right.iter().all(|part| !matches!(part, Part::Name(name) if !derives[*name]));
                derives[*left] |= whole;
            }
        }
        derives.into_iter().all(|derives| derives)
    }

    fn rule(&mut self, left: &str, right: Vec<String>) {
        let left = self.name(left);
        let right = right
            .iter()
            .map(|word| match word.as_bytes() {
                [sign] => Part::Sign(*sign),
                _ => Part::Name(self.name(word)),
            })
            .collect();
        self.rules.push(Rule { left, right });
    }

    fn name(&mut self, word: &str) -> usize {
        self.names.iter().position(|name| name == word).unwrap_or_else(|| {
            self.names.push(word.to_string());
            self.names.len() - 1
        })
    }
}

/// Some of a grammar's names, a bit for each.
type Names = u32;

/// What is found of a text, from each place on: the names that derive the bytes up to a later place,
/// and those that derive some string that begins with all the bytes.
struct Search<'a> {
    grammar: &'a Grammar,
    text: &'a [u8],
    derive: Vec<Vec<Names>>,
    begin: Vec<Names>,
}

impl Search<'_> {
    /// Do these parts derive exactly the bytes from one place to another?
    fn derived(&self, parts: &[Part], from: usize, to: usize) -> bool {
        let Some((first, rest)) = parts.split_first() else { return from == to };
        match first {
            Part::Sign(sign) => from < to && self.text[from] == *sign && self.derived(rest, from + 1, to),
            Part::Name(name) => {
                (from..=to).any(|mid| has(self.derive[from][mid - from], *name) && self.derived(rest, mid, to))
            }
        }
    }

    /// Do these parts derive some string that begins with the bytes from one place to the end? Every
    /// name derives something, so the parts behind the end never matter.
    fn begun(&self, parts: &[Part], from: usize, end: usize) -> bool {
        if from == end {
            return true;
        }
        let Some((first, rest)) = parts.split_first() else { return false };
        match first {
            Part::Sign(sign) => self.text[from] == *sign && self.begun(rest, from + 1, end),
            Part::Name(name) => {
                has(self.begin[from], *name)
                    || (from..=end).any(|mid| has(self.derive[from][mid - from], *name) && self.begun(rest, mid, end))
            }
        }
    }

    /// Finds all that there is to find of the bytes up to an end, those up to the one before it being
    /// done: by every rule, until nothing more comes.
    fn reach(&mut self, end: usize) {
        self.derive.push(Vec::new());
        self.begin = vec![0; end + 1];
        for from in (0..=end).rev() {
            self.derive[from].push(0);
            loop {
                let before = (self.derive[from][end - from], self.begin[from]);
                // from the last rule up: what they are made of stands behind them, and few rounds are needed
                for Rule { left, right } in self.grammar.rules.iter().rev() {
                    if !has(self.derive[from][end - from], *left) && self.derived(right, from, end) {
                        self.derive[from][end - from] |= 1 << left;
                    }
                    if !has(self.begin[from], *left) && self.begun(right, from, end) {
                        self.begin[from] |= 1 << left;
                    }
                }
                if before == (self.derive[from][end - from], self.begin[from]) {
                    break;
                }
            }
        }
    }
}

fn has(names: Names, name: usize) -> bool {
    names & 1 << name != 0
}

/// The byte place of a text of up to LONGEST_SEARCHED bytes; none where it is a text of the form.
pub fn place(text: &[u8]) -> Option<usize> {
    assert!(text.len() <= LONGEST_SEARCHED);
    static GRAMMAR: OnceLock<Grammar> = OnceLock::new();
    let mut search = Search { grammar: GRAMMAR.get_or_init(Grammar::new), text, derive: Vec::new(), begin: Vec::new() };
    let whole = 0; // the first name, that of a text
    search.reach(0);
    for end in 1..=text.len() {
        search.reach(end);
        if !has(search.begin[0], whole) {
            return Some(end - 1);
        }
    }
    (!has(search.derive[0][text.len()], whole)).then_some(text.len())
}
