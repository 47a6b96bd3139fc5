//! Random Newick texts: how a tree is written, trees that break a rule or a limit, and damage.

use crate::newick::{self, LARGEST_SPECIES, LONGEST_TEXT, MOST_BRACKETS, MOST_NODES};
use crate::random::Random;
use crate::trees::Tree;

/// How a text is written: how many of 8 places have blanks, and of 8 subtrees a length.
struct Style {
    blanks: usize,
    lengths: usize,
}

/// A text of the tree, its children in the tree's order.
pub fn written(tree: &Tree, random: &mut Random) -> Vec<u8> {
    let style = Style { blanks: random.pick(&[0, 0, 0, 1, 2, 6]), lengths: random.pick(&[0, 0, 1, 4, 8]) };
    let mut text = Vec::new();
    put(tree, &style, random, &mut text);
    text.push(b';');
    put_blanks(&style, random, &mut text);
    text
}

/// A subtree, with what may stand about it.
fn put(tree: &Tree, style: &Style, random: &mut Random, text: &mut Vec<u8>) {
    put_blanks(style, random, text);
    match tree {
        Tree::Leaf(species) => text.extend(species.to_string().bytes()),
        Tree::Inner(children) => {
            for (k, child) in children.iter().enumerate() {
                text.push(if k == 0 { b'(' } else { b',' });
                put(child, style, random, text);
            }
            text.push(b')');
        }
    }
    put_blanks(style, random, text);
    if random.chance(style.lengths, 8) {
        text.push(b':');
        put_blanks(style, random, text);
        put_digits(random, text);
        if random.chance(1, 2) {
            text.push(b'.');
            put_digits(random, text);
        }
        put_blanks(style, random, text);
    }
}

fn put_blanks(style: &Style, random: &mut Random, text: &mut Vec<u8>) {
    while random.chance(style.blanks, 8) {
        text.push(random.pick(b"  \n\r"));
    }
}

fn put_digits(random: &mut Random, text: &mut Vec<u8>) {
    for _ in 0..random.pick(&[1, 1, 2, 3, 5]) {
        text.push(random.pick(b"0123456789"));
    }
}

/// The tree with some rules broken: only children, species again, or species not below n.
pub fn wild(tree: &Tree, n: usize, random: &mut Random) -> Tree {
    let broken = match tree {
        Tree::Leaf(_) if random.chance(1, 10) => Tree::Leaf(match random.below(4) {
            0 => random.below(n),
            1 => n + random.below(3),
            2 => random.between(60, 260),
            _ => random.pick(&[64, 99, 100, 199, 200, 249, 250, 253, 254, 255, 256, 1000, 2540]),
        }),
        Tree::Leaf(species) => Tree::Leaf(*species),
        Tree::Inner(children) => Tree::Inner(children.iter().map(|child| wild(child, n, random)).collect()),
    };
    if random.chance(1, 30) {
        Tree::Inner(vec![broken])
    } else {
        broken
    }
}

/// A tree about as deep as a text's may be, or with about as many nodes.
pub fn large(random: &mut Random) -> Tree {
    if random.chance(1, 2) {
        let mut tree = Tree::Leaf(random.below(64));
        for _ in 0..random.between(MOST_BRACKETS - 2, MOST_BRACKETS + 2) {
            let mut children = vec![tree];
            if random.chance(7, 8) {
                children.insert(random.below(2), Tree::Leaf(random.below(64)));
            }
            tree = Tree::Inner(children);
        }
        return tree;
    }
    let nodes = random.between(MOST_NODES - 3, MOST_NODES + 3);
    let wide = random.pick(&[2, 3, 9, 200]);
    let mut trees: Vec<Tree> = (0..3).map(|species| Tree::Leaf(species)).collect();
    let mut count = trees.len() + 1;
    while count < nodes {
        if trees.len() > 1 && random.chance(1, wide) {
            // some of them under a node of their own
            let from = random.below(trees.len());
            let children = trees.split_off(from);
            trees.push(Tree::Inner(children));
        } else {
            trees.push(Tree::Leaf(random.below(64)));
        }
        count += 1;
    }
    Tree::Inner(trees)
}

/// Blanks before or behind the text, until it has about as many bytes as may be.
pub fn stretch(text: &mut Vec<u8>, random: &mut Random) {
    let blanks = random.between(LONGEST_TEXT - 2, LONGEST_TEXT + 2).saturating_sub(text.len());
    let place = random.pick(&[0, text.len()]);
    text.splice(place..place, vec![random.pick(b" \n\r"); blanks]);
}

/// A text that was written of a tree has to be read as that tree, unless it passes a limit.
pub fn read_again(tree: &Tree, text: &[u8]) {
    fn largest(tree: &Tree) -> (usize, usize, usize) {
        match tree {
            Tree::Leaf(species) => (0, 1, *species),
            Tree::Inner(children) => children
                .iter()
                .map(largest)
                .fold((1, 1, 0), |(deep, nodes, species), (d, n, s)| (deep.max(d + 1), nodes + n, species.max(s))),
        }
    }
    let (deep, nodes, species) = largest(tree);
    let good = deep <= MOST_BRACKETS && nodes <= MOST_NODES && species <= LARGEST_SPECIES && text.len() <= LONGEST_TEXT;
    match newick::read(text) {
        Ok(read) => assert!(good && read == *tree, "read as another tree: {text:?}"),
        Err(place) => assert!(!good, "refused at {place}: {text:?}"),
    }
}

/// A thing or two done to a text; now and then it is still good.
pub fn damage(text: &mut Vec<u8>, random: &mut Random) {
    for _ in 0..random.pick(&[1, 1, 1, 2]) {
        let place = random.below(text.len().max(1));
        let byte = match random.below(4) {
            0 => random.byte(),
            1 if !text.is_empty() => random.pick(text),
            2 => random.pick(b"\t\0x'[]_-+eE\"A/\x0b\x0c\xa0\xff"),
            _ => random.pick(b"(),;:. \n\r0123456789"),
        };
        match random.below(7) {
            0 | 1 if place < text.len() => text[place] = byte,
            2 if place < text.len() => {
                text.remove(place);
            }
            3 if place < text.len() => text.insert(place, text[place]),
            4 if place + 1 < text.len() => text.swap(place, place + 1),
            5 => text.truncate(place),
            _ => text.insert(random.below(text.len() + 1), byte),
        }
    }
}
