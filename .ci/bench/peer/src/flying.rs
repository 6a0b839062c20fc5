//! What is in flight, in order, in blocks: an entry at any place leaves in the time that it takes to pass the blocks before it and to move
//! half of a block at most.

const BLOCK: usize = 1024;

struct Block { keys: Box<[u32; BLOCK]>, start: usize, end: usize }

#[derive(Default)]
pub struct Flying { blocks: Vec<Block>, len: usize }

impl Flying {
    pub fn push(&mut self, key: u32) {
        if self.blocks.last().map_or(true, |block| block.end == BLOCK) {
            self.blocks.push(Block { keys: Box::new([0; BLOCK]), start: 0, end: 0 });
        }
        let last = self.blocks.len() - 1;
        let block = &mut self.blocks[last];
        block.keys[block.end] = key;
        block.end += 1;
        self.len += 1;
    }

    /// The entry at a place, looked for from the end that is nearer, with the number of its block and its place there.
    pub fn find(&self, place: u64) -> Option<(u32, (usize, usize))> {
        let (mut before, len) = (usize::try_from(place).ok()?, |block: &Block| block.end - block.start);
        let mut behind = self.len.checked_sub(before).filter(|behind| *behind > 0)?;
        let (number, at) = if before < behind {
            let mut number = 0;
            while before >= len(&self.blocks[number]) {
                before -= len(&self.blocks[number]);
                number += 1;
            }
            (number, self.blocks[number].start + before)
        } else {
            let mut number = self.blocks.len() - 1;
            while behind > len(&self.blocks[number]) {
                behind -= len(&self.blocks[number]);
                number -= 1;
            }
            (number, self.blocks[number].end - behind)
        };
        Some((self.blocks[number].keys[at], (number, at)))
    }

    /// An entry leaves, and the shorter side of its block moves up.
    pub fn remove(&mut self, (number, at): (usize, usize)) {
        self.len -= 1;
        let block = &mut self.blocks[number];
        if at - block.start < block.end - at {
            block.keys.copy_within(block.start..at, block.start + 1);
            block.start += 1;
        } else {
            block.keys.copy_within(at + 1..block.end, at);
            block.end -= 1;
        }
        if block.start == block.end {
            (block.start, block.end) = (0, 0);
            if number + 1 < self.blocks.len() {
                self.blocks.remove(number);
            }
        }
    }
}
