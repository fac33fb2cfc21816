//! Random setup headers over the whole range of what can be sent, and some
//! that cannot.

use crate::random::Random;
use crate::reference::setup::Field;

/// A header's bits and where its fields lie.
pub type Written = crate::written::Written<Field>;

/// A tree, depth first: a token for a leaf, none for a branch.
type Tree = Vec<Option<u64>>;

/// How a set of quant ranges is sent.
enum Set {
    /// A new one: sizes and one more index.
    New(Vec<u64>, Vec<u64>),
    /// A copy of the most recent set.
    Recent,
    /// A copy of the set of the same plane and the type before.
    SamePlane,
}

/// What a tree is made like.
#[derive(Clone, Copy)]
enum Shape {
    /// Every branch has a leaf on its 0 side.
    Right,
    /// Every branch has a leaf on its 1 side.
    Left,
    /// Every branch has a leaf on one side.
    Comb,
    /// Both sides of a branch have as many leaves.
    Balanced,
    /// Anything.
    Any,
}

/// Which trees a header has.
#[derive(Clone, Copy, PartialEq, Eq)]
pub enum Trees {
    /// Any within the limits.
    Any,
    /// Of 32 leaves, one for each token.
    Full,
    /// Lone leaves.
    Lone,
}

/// Writes a random header that is accepted. `small` ones have few bits.
pub fn accepted(random: &mut Random, small: bool) -> Written {
    accepted_with(random, small, Trees::Any)
}

/// The same with trees of one kind.
pub fn accepted_with(random: &mut Random, small: bool, trees: Trees) -> Written {
    let nbms = if small {
        1 + random.below(3)
    } else {
        number_of_matrices(random)
    };
    let mut written = begin(random, small, nbms);
    for (number, set) in sets(random, small, nbms).iter().enumerate() {
        put_set(&mut written, number, set, nbms);
    }
    for _ in 0..80 {
        let tree = match trees {
            Trees::Any => good_tree(random, small),
            Trees::Full => full_tree(random),
            Trees::Lone => vec![Some(random.below(32))],
        };
        put_tree(&mut written, &tree);
    }
    written
}

/// Writes a random header whose trees break a limit: one is too deep or has
/// too many leaves.
pub fn with_bad_tree(random: &mut Random) -> Written {
    let nbms = 1 + random.below(3);
    let small = random.once_in(2);
    let mut written = begin(random, small, nbms);
    for (number, set) in sets(random, small, nbms).iter().enumerate() {
        put_set(&mut written, number, set, nbms);
    }
    let bad = random.pick(&[0, 0, 1, 40, 78, 79]);
    for tree in 0..80 {
        let tree = if tree == bad {
            bad_tree(random)
        } else {
            good_tree(random, small)
        };
        put_tree(&mut written, &tree);
    }
    written
}

/// Writes a header up to its sets of quant ranges.
fn begin(random: &mut Random, small: bool, nbms: u64) -> Written {
    let mut written = Written::new();
    written.put(Field::TypeByte, 0x82, 8);
    for letter in *b"theora" {
        written.put(Field::Letter, u64::from(letter), 8);
    }
    let width = if small {
        random.below(2)
    } else {
        random.below(8)
    };
    written.put(Field::LimitWidth, width, 3);
    put_values(random, &mut written, Field::Limit, width as u32);
    for (width_field, field) in [
        (Field::AcWidth, Field::AcScale),
        (Field::DcWidth, Field::DcScale),
    ] {
        let less_one = if small {
            random.below(2)
        } else {
            random.below(16)
        };
        written.put(width_field, less_one, 4);
        put_values(random, &mut written, field, less_one as u32 + 1);
    }
    written.put(Field::Nbms, nbms - 1, 9);
    for _ in 0..nbms {
        put_values(random, &mut written, Field::BaseValue, 8);
    }
    written
}

/// Writes 64 values: any, all the least, all the greatest, or falling.
fn put_values(random: &mut Random, written: &mut Written, field: Field, width: u32) {
    let last = (1 << width) - 1;
    let kind = random.below(8);
    for i in 0..64 {
        let value = match kind {
            0 => 0,
            1 => last,
            2 => last * (63 - i) / 63,
            _ => random.up_to(last),
        };
        written.put(field, value, width);
    }
}

/// NBMS: small, large, near a power of two, or any.
fn number_of_matrices(random: &mut Random) -> u64 {
    match random.below(32) {
        0 => 384,
        1 => 1 + random.below(384),
        2 => random.pick(&[31, 32, 33, 63, 64, 65, 127, 128, 129]),
        3 | 4 => random.pick(&[255, 256, 257, 383]),
        5..12 => random.pick(&[1, 2, 3, 4, 5, 7, 8, 9, 15, 16, 17]),
        _ => 1 + random.below(12),
    }
}

/// Six sets in any pattern of new ones and copies.
fn sets(random: &mut Random, small: bool, nbms: u64) -> Vec<Set> {
    (0..6)
        .map(|number| match random.below(4) {
            0 if number > 0 => Set::Recent,
            1 if number > 2 => Set::SamePlane,
            _ => new_set(random, small, nbms),
        })
        .collect()
}

/// A new set: one range, 63 ranges, or any split of 63.
fn new_set(random: &mut Random, small: bool, nbms: u64) -> Set {
    let most = match random.below(8) {
        _ if small => 63,
        0 => 63,
        1 => 1,
        2 => 2,
        3 | 4 => 8,
        _ => 30,
    };
    let mut sizes = Vec::new();
    let mut rest = 63;
    while rest > 0 {
        let size = 1 + random.below(rest.min(most));
        sizes.push(if small { rest } else { size });
        rest -= sizes[sizes.len() - 1];
    }
    let indices = (0..=sizes.len())
        .map(|_| match random.below(8) {
            0 => 0,
            1 => nbms - 1,
            _ => random.below(nbms),
        })
        .collect();
    Set::New(sizes, indices)
}

/// Writes a set.
fn put_set(written: &mut Written, number: usize, set: &Set, nbms: u64) {
    if number > 0 {
        let new = matches!(set, Set::New(..));
        written.put(Field::NewRanges(number), u64::from(new), 1);
    }
    match set {
        Set::New(sizes, indices) => put_new_set(written, number, sizes, indices, nbms),
        Set::Recent | Set::SamePlane if number < 3 => {}
        Set::Recent => written.put(Field::SamePlane(number), 0, 1),
        Set::SamePlane => written.put(Field::SamePlane(number), 1, 1),
    }
}

/// Writes a new set's indices and sizes, each in as many bits as it needs.
fn put_new_set(written: &mut Written, number: usize, sizes: &[u64], indices: &[u64], nbms: u64) {
    let index_width = bits_of(nbms - 1);
    written.put(Field::FirstIndex(number), indices[0], index_width);
    let mut rest = 62;
    for (i, size) in sizes.iter().enumerate() {
        written.put(Field::Size(number), size - 1, bits_of(rest));
        written.put(Field::LaterIndex(number), indices[i + 1], index_width);
        rest = rest.saturating_sub(*size);
    }
}

/// How many bits a number takes.
fn bits_of(number: u64) -> u32 {
    (0..64).find(|width| number >> width == 0).unwrap_or(64)
}

/// A tree within the limits.
fn good_tree(random: &mut Random, small: bool) -> Tree {
    let leaves = match random.below(8) {
        0 => 1,
        1 => 32,
        2 => 31,
        3 => 2,
        _ => 1 + random.below(32),
    };
    let leaves = if small && !random.once_in(16) {
        1
    } else {
        leaves
    };
    any_shape(random, leaves)
}

/// A tree of so many leaves.
fn any_shape(random: &mut Random, leaves: u64) -> Tree {
    let shape = random.pick(&[
        Shape::Right,
        Shape::Left,
        Shape::Comb,
        Shape::Balanced,
        Shape::Any,
        Shape::Any,
    ]);
    let mut tree = Vec::new();
    grow(random, &mut tree, shape, leaves);
    tree
}

/// A tree with every token once.
fn full_tree(random: &mut Random) -> Tree {
    let mut tokens: Vec<u64> = (0..32).collect();
    let mut tree = any_shape(random, 32);
    for token in tree.iter_mut().flatten() {
        *token = tokens.swap_remove(random.index(tokens.len()));
    }
    tree
}

/// Appends a tree of so many leaves.
fn grow(random: &mut Random, tree: &mut Tree, shape: Shape, leaves: u64) {
    if leaves == 1 {
        tree.push(Some(random.below(32)));
        return;
    }
    let first = match shape {
        Shape::Right => 1,
        Shape::Left => leaves - 1,
        Shape::Comb => random.pick(&[1, leaves - 1]),
        Shape::Balanced => leaves / 2,
        Shape::Any => 1 + random.below(leaves - 1),
    };
    tree.push(None);
    grow(random, tree, shape, first);
    grow(random, tree, shape, leaves - first);
}

/// A tree with more than 32 leaves, or one that goes deeper than 32.
fn bad_tree(random: &mut Random) -> Tree {
    let mut tree = Vec::new();
    if random.once_in(2) {
        let shape = random.pick(&[Shape::Balanced, Shape::Any, Shape::Comb]);
        let leaves = 33 + random.below(3);
        grow(random, &mut tree, shape, leaves);
    } else {
        // Down to the right behind a leaf, or down to the left.
        let leaves_on_the_way = random.up_to(32);
        for depth in 0..33 + random.below(3) {
            tree.push(None);
            if depth < leaves_on_the_way {
                tree.push(Some(random.below(32)));
            }
        }
    }
    tree
}

/// Writes a tree.
fn put_tree(written: &mut Written, tree: &Tree) {
    for node in tree {
        written.put(Field::LeafBit, u64::from(node.is_some()), 1);
        if let Some(token) = node {
            written.put(Field::Token, *token, 5);
        }
    }
}

#[cfg(test)]
mod tests {
    use super::*;
    use crate::reference::setup::setup;

    #[test]
    fn they_are_accepted_to_their_last_bit() {
        let mut random = Random::new(4);
        for number in 0..300 {
            let written = accepted(&mut random, number % 3 == 0);
            let read = setup(written.bytes()).unwrap();
            assert_eq!(read.bits, written.length());
        }
    }

    #[test]
    fn trees_of_one_kind() {
        let mut random = Random::new(6);
        for _ in 0..30 {
            let full = accepted_with(&mut random, false, Trees::Full);
            for mut codes in setup(full.bytes()).unwrap().codes {
                codes.sort_by_key(|code| code.token);
                assert!((0..32).eq(codes.iter().map(|code| code.token)));
            }
            let lone = accepted_with(&mut random, true, Trees::Lone);
            let codes = setup(lone.bytes()).unwrap().codes;
            assert!(codes.iter().all(|codes| codes.len() == 1));
        }
    }

    #[test]
    fn bad_trees_are_refused_by_7() {
        let mut random = Random::new(5);
        for _ in 0..300 {
            let written = with_bad_tree(&mut random);
            let refused = setup(written.bytes()).unwrap_err();
            assert_eq!(refused.fault.number, 7);
            assert!(matches!(refused.field, Field::Branch | Field::Leaf));
        }
    }
}
