//! An expression while it is being made: instructions in a list, with jumps
//! that name the instruction they aim at.

use crate::isa;

/// Where a jump aims: the start of an item, or so many bytes away from it.
/// The item after the last stands for the expression's length.
#[derive(Clone, Copy)]
pub struct Target {
    pub item: usize,
    pub away: isize,
}

#[derive(Clone)]
pub struct Item {
    pub bytes: Vec<u8>,
    /// Where it aims, if the place is to be written over its operand.
    pub target: Option<Target>,
    /// Height before it as its maker meant it; None where no walk comes.
    pub height: Option<usize>,
}

impl Item {
    pub fn plain(bytes: Vec<u8>, height: Option<usize>) -> Item {
        Item {
            bytes,
            target: None,
            height,
        }
    }

    pub fn jump(opcode: u8, item: usize, height: Option<usize>) -> Item {
        Item {
            bytes: vec![opcode, 0, 0],
            target: Some(Target { item, away: 0 }),
            height,
        }
    }
}

#[derive(Clone, Default)]
pub struct Program {
    pub items: Vec<Item>,
}

impl Program {
    pub fn size(&self) -> usize {
        self.items.iter().map(|item| item.bytes.len()).sum()
    }

    pub fn push(&mut self, bytes: Vec<u8>, height: Option<usize>) {
        self.items.push(Item::plain(bytes, height));
    }

    pub fn end(&mut self, height: Option<usize>) {
        self.push(vec![isa::END], height);
    }

    /// Puts items in front of item `at`. A jump to that item then aims at the
    /// first new one; jumps to later items still aim at them. Targets in the
    /// new items are numbers of items as they are afterwards.
    pub fn insert(&mut self, at: usize, new: Vec<Item>) {
        let more = new.len();
        let targets = self.items.iter_mut().filter_map(|i| i.target.as_mut());
        for target in targets.filter(|target| target.item > at) {
            target.item += more;
        }
        self.items.splice(at..at, new);
    }

    /// The offset of each item, and the length as the last.
    fn offsets(&self) -> Vec<usize> {
        let mut offsets = vec![0];
        for item in &self.items {
            offsets.push(offsets[offsets.len() - 1] + item.bytes.len());
        }
        offsets
    }

    pub fn bytes(&self) -> Vec<u8> {
        let offsets = self.offsets();
        let mut bytes = Vec::new();
        for item in &self.items {
            match item.target {
                None => bytes.extend(&item.bytes),
                Some(target) => {
                    let place = offsets[target.item].wrapping_add_signed(target.away);
                    bytes.push(item.bytes[0]);
                    bytes.extend((place as u16).to_be_bytes());
                }
            }
        }
        bytes
    }
}
