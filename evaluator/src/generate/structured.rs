//! Expressions meant to be accepted. The maker keeps the height at the place
//! it writes and the jumps that have no target yet; a jump is given a target
//! only where the height is the one it brings.

use super::operands;
use super::program::{Item, Program, Target};
use crate::isa::{self, Row};
use crate::random::Random;

/// A program of about `size` bytes; one in twelve is preceded by a climb.
pub fn program(random: &mut Random, size: usize) -> Program {
    let climbs = random.chance(1, 12);
    let mut maker = Maker::new(random);
    if climbs {
        maker.climb();
    }
    let size = size + maker.program.size();
    while maker.program.size() < size {
        maker.step();
    }
    maker.finish();
    maker.program
}

/// A program of exactly `length` bytes, filled up with unreached instructions.
pub fn exact(random: &mut Random, length: usize) -> Program {
    loop {
        let size = length - random.between(20, 120);
        let mut program = program(random, size);
        if program.size() <= length {
            let single = rows(|row| row.operands == 0);
            while program.size() < length {
                let row = random.choose(&single);
                program.push(vec![row.opcode], None);
            }
            return program;
        }
    }
}

fn rows(keep: impl Fn(&Row) -> bool) -> Vec<&'static Row> {
    isa::TABLE.iter().filter(|row| keep(row)).collect()
}

/// A jump without a target. `height` is the height it brings; None if no walk
/// comes to the jump, which may then aim anywhere behind it.
struct Waiting {
    item: usize,
    height: Option<usize>,
}

struct Maker<'a> {
    random: &'a mut Random,
    program: Program,
    /// Height at the place being written; None if no walk comes there.
    height: Option<usize>,
    waiting: Vec<Waiting>,
    /// No height above this is made.
    ceiling: usize,
    /// How often, in eighths, an instruction that raises the height is wanted.
    rise: usize,
    /// How often, in sixteenths, a jump or an end is wanted.
    branch: usize,
}

impl Maker<'_> {
    fn new(random: &mut Random) -> Maker<'_> {
        let ceiling = random.choose(&[1, 2, 3, 5, 8, 16, isa::CELLS, isa::CELLS]);
        let rise = random.below(8);
        let branch = random.below(8);
        Maker {
            random,
            program: Program::default(),
            height: Some(0),
            waiting: Vec::new(),
            ceiling,
            rise,
            branch,
        }
    }

    /// Raises the height to any number of cells with short instructions.
    fn climb(&mut self) {
        let top = self.random.between(1, isa::CELLS);
        self.ceiling = self.ceiling.max(top);
        for height in 0..top {
            let fits =
                |row: &Row| row.operands < 2 && row.leaves > row.needs && row.needs <= height;
            let row = self.random.choose(&rows(fits));
            let bytes = operands::instruction(self.random, row, Some(height));
            self.program.push(bytes, Some(height));
        }
        self.height = Some(top);
    }

    fn here(&self) -> usize {
        self.program.items.len()
    }

    fn step(&mut self) {
        let Some(height) = self.height else {
            let landed = self.random.chance(2, 3) && self.land();
            if !landed {
                self.unreached();
            }
            return;
        };
        if self.random.chance(1, 3) {
            self.join(1);
        }
        if self.random.chance(self.branch, 16) {
            self.jump_or_end(height);
        } else {
            self.ordinary(height);
        }
    }

    /// Writes an instruction that goes on to the next start.
    fn ordinary(&mut self, height: usize) {
        let fits = |row: &Row| {
            let goes_on = !row.is_jump() && row.opcode != isa::END;
            goes_on && row.needs <= height && height - row.needs + row.leaves <= self.ceiling
        };
        let mut choice = rows(fits);
        if self.random.chance(self.rise, 8) && height < self.ceiling {
            choice.retain(|row| row.leaves > row.needs);
        }
        let row = self.random.choose(&choice);
        let bytes = operands::instruction(self.random, row, Some(height));
        self.program.push(bytes, Some(height));
        self.height = Some(height - row.needs + row.leaves);
    }

    fn jump_or_end(&mut self, height: usize) {
        match self.random.below(6) {
            // An end is written only where a waiting jump lets walks go on.
            0 if self.waiting.iter().any(|jump| jump.height.is_some()) => {
                self.program.end(Some(height));
                self.height = None;
            }
            1 => {
                self.jump(isa::GOTO, Some(height), Some(height));
                self.height = None;
            }
            _ if height > 0 => {
                self.jump(isa::IF_GOTO, Some(height), Some(height - 1));
                self.height = Some(height - 1);
            }
            _ => self.ordinary(height),
        }
    }

    fn jump(&mut self, opcode: u8, before: Option<usize>, brings: Option<usize>) {
        self.waiting.push(Waiting {
            item: self.here(),
            height: brings,
        });
        // The target is set by `aim_here`.
        let unknown = 0;
        self.program.items.push(Item::jump(opcode, unknown, before));
    }

    /// Writes any instruction where no walk comes.
    fn unreached(&mut self) {
        let row = self.random.choose(&rows(|_| true));
        if row.is_jump() {
            self.jump(row.opcode, None, None);
        } else {
            let bytes = operands::instruction(self.random, row, None);
            self.program.push(bytes, None);
        }
    }

    fn aim_here(&mut self, item: usize) {
        self.program.items[item].target = Some(Target {
            item: self.program.items.len(),
            away: 0,
        });
    }

    /// Lets waiting jumps that fit the height here aim here, each `part` times in 2.
    fn join(&mut self, part: usize) {
        for jump in std::mem::take(&mut self.waiting) {
            let fits = jump.height.is_none() || jump.height == self.height;
            if fits && self.random.chance(part, 2) {
                self.aim_here(jump.item);
            } else {
                self.waiting.push(jump);
            }
        }
    }

    /// Where no walk comes, lets one waiting jump bring its height, and perhaps
    /// others join it. False if no reached jump waits.
    fn land(&mut self) -> bool {
        let reached: Vec<usize> = (0..self.waiting.len())
            .filter(|place| self.waiting[*place].height.is_some())
            .collect();
        if reached.is_empty() {
            return false;
        }
        let place = self.random.choose(&reached);
        let jump = self.waiting.remove(place);
        self.aim_here(jump.item);
        self.height = jump.height;
        self.join(1);
        true
    }

    /// Gives every waiting jump a target and closes every walk with an end.
    fn finish(&mut self) {
        while self.height.is_some() || self.land() {
            self.join(2);
            if self.random.chance(1, 2) {
                self.level();
            }
            self.program.end(self.height);
            self.height = None;
        }
        if self.random.chance(1, 4) {
            for _ in 0..self.random.between(1, 4) {
                self.unreached();
            }
        }
        self.join(2);
        if self.aimed_at_here() {
            self.program.end(None);
        }
    }

    /// Some jump aims at the item that is not written yet.
    fn aimed_at_here(&self) -> bool {
        let mut targets = self.program.items.iter().filter_map(|item| item.target);
        targets.any(|target| target.item == self.here())
    }

    /// Moves the height to the one that a waiting jump brings and joins there.
    fn level(&mut self) {
        let wanted = self.waiting.iter().find_map(|jump| jump.height);
        let (Some(wanted), Some(mut height)) = (wanted, self.height) else {
            return;
        };
        if wanted.abs_diff(height) > 8 {
            return;
        }
        while height > wanted {
            self.program.push(vec![isa::POP], Some(height));
            height -= 1;
        }
        while height < wanted {
            let bytes = vec![isa::CONST8, self.random.byte()];
            self.program.push(bytes, Some(height));
            height += 1;
        }
        self.height = Some(wanted);
        self.join(2);
    }
}
