//! Newick text in (document 02, T-01): the tree of a text, or the byte place of its refusal. The
//! text is read byte by byte; what was read last says which bytes may come next.

use crate::trees::Tree;

pub const LONGEST_TEXT: usize = 4_096;
pub const MOST_BRACKETS: usize = 63;
pub const MOST_NODES: usize = 127;
pub const LARGEST_SPECIES: usize = 254;

/// What was read last. Where blanks may follow, they change nothing.
#[derive(Clone, Copy, PartialEq, Eq)]
enum Last {
    /// Nothing, a bracket that opens, or a comma: a subtree has to begin.
    Start,
    /// A digit of a species number, and the number so far.
    Species(usize),
    /// A subtree that may still get a length.
    Subtree,
    Colon,
    /// A digit of a length before its point, the point, and a digit behind it.
    Digit,
    Point,
    Fraction,
    /// A length, and a blank.
    Length,
    Semicolon,
}

#[derive(Default)]
struct Reader {
    /// For each open bracket, the subtrees that it has so far.
    open: Vec<Vec<Tree>>,
    whole: Option<Tree>,
    nodes: usize,
}

/// The text's tree, its children in the text's order, or the byte place.
pub fn read(text: &[u8]) -> Result<Tree, usize> {
    if text.len() > LONGEST_TEXT {
        return Err(LONGEST_TEXT);
    }
    let mut reader = Reader::default();
    let mut last = Last::Start;
    for (place, &byte) in text.iter().enumerate() {
        last = reader.next(last, byte).ok_or(place)?;
    }
    match (last, reader.whole) {
        (Last::Semicolon, Some(tree)) => Ok(tree),
        _ => Err(text.len()),
    }
}

impl Reader {
    /// A byte more; none where no text has it here, or where it passes a limit.
    fn next(&mut self, last: Last, byte: u8) -> Option<Last> {
        match (last, byte) {
            // "Spaces and bytes 10 and 13 are skipped, except inside a number"
            (Last::Species(species), b' ' | 10 | 13) => {
                self.put(Tree::Leaf(species));
                Some(Last::Subtree)
            }
            (Last::Digit | Last::Fraction, b' ' | 10 | 13) => Some(Last::Length),
            (Last::Point, b' ' | 10 | 13) => None,
            (_, b' ' | 10 | 13) => Some(last),

            (Last::Start, b'(') if self.open.len() < MOST_BRACKETS && self.nodes < MOST_NODES => {
                self.nodes += 1;
                self.open.push(Vec::new());
                Some(Last::Start)
            }
            (Last::Start, b'0'..=b'9') if self.nodes < MOST_NODES => {
                self.nodes += 1;
                Some(Last::Species(digit(byte)))
            }
            (Last::Species(species), b'0'..=b'9') => {
                let longer = 10 * species + digit(byte);
                (species > 0 && longer <= LARGEST_SPECIES).then_some(Last::Species(longer))
            }
            (Last::Species(species), _) => {
                self.put(Tree::Leaf(species));
                self.next(Last::Subtree, byte)
            }

            (Last::Subtree, b':') => Some(Last::Colon),
            (Last::Colon | Last::Digit, b'0'..=b'9') => Some(Last::Digit),
            (Last::Digit, b'.') => Some(Last::Point),
            (Last::Point | Last::Fraction, b'0'..=b'9') => Some(Last::Fraction),

            (Last::Subtree | Last::Digit | Last::Fraction | Last::Length, b',') => {
                (!self.open.is_empty()).then_some(Last::Start)
            }
            (Last::Subtree | Last::Digit | Last::Fraction | Last::Length, b')') => {
                let children = self.open.pop()?;
                self.put(Tree::Inner(children));
                Some(Last::Subtree)
            }
            (Last::Subtree | Last::Digit | Last::Fraction | Last::Length, b';') => {
                self.open.is_empty().then_some(Last::Semicolon)
            }
            _ => None,
        }
    }

    /// A subtree that is read goes to the bracket that it stands in.
    fn put(&mut self, tree: Tree) {
        match self.open.last_mut() {
            Some(subtrees) => subtrees.push(tree),
            None => self.whole = Some(tree),
        }
    }
}

fn digit(byte: u8) -> usize {
    (byte - b'0') as usize
}
