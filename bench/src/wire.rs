//! Ways for messages between ranks: two that hold them in lent memory, and two that stand on another.

use gelvatos::Record;

/// Why a call of a wire is refused, by number.
pub type Refusal = u32;

const BAD_PAIR: Refusal = 10;
const TOO_LONG: Refusal = 11;
const PAIR_FULL: Refusal = 12;
const NO_ROOM: Refusal = 13;
const SHORT_BUFFER: Refusal = 14;

const MOST_RANKS: usize = 64;

/// Messages between ranks, of each ordered pair the older first. A message is under way until it is carried.
pub trait Wire {
    const LIMIT: usize;

    fn ranks(&self) -> usize;

    /// How many messages may wait between two ranks.
    fn depth(&self) -> usize;

    /// How many messages may wait in all.
    fn room(&self) -> usize;

    fn waiting(&self) -> usize;

    fn waiting_between(&self, from: usize, to: usize) -> Result<usize, Refusal>;

    fn send(&mut self, from: usize, to: usize, tag: u32, words: &[u32]) -> Result<(), Refusal>;

    /// Lets the oldest message under way arrive, if there is one.
    fn carry(&mut self, from: usize, to: usize) -> Result<bool, Refusal>;

    /// Takes the oldest arrived message with the tag, and tells how many words it has.
    fn take(
        &mut self,
        from: usize,
        to: usize,
        tag: u32,
        buffer: &mut [u32],
    ) -> Result<Option<usize>, Refusal>;

    fn pair(&self, from: usize, to: usize) -> Result<(), Refusal> {
        if from < self.ranks() && to < self.ranks() && from != to {
            Ok(())
        } else {
            Err(BAD_PAIR)
        }
    }
}

/// All messages in one row of lent records, in the order in which they were sent.
pub struct Row<'a> {
    records: &'a mut [Record],
    used: usize,
    ranks: usize,
}

impl<'a> Row<'a> {
    pub fn new(ranks: usize, lent: &'a mut [Record]) -> Row<'a> {
        let room = if (1..=MOST_RANKS).contains(&ranks) {
            lent.len().min(1536)
        } else {
            0
        };
        Row {
            records: &mut lent[..room],
            used: 0,
            ranks: if room > 0 { ranks } else { 0 },
        }
    }

    fn held(&self) -> &[Record] {
        &self.records[..self.used]
    }
}

impl Wire for Row<'_> {
    const LIMIT: usize = 4;

    fn ranks(&self) -> usize {
        self.ranks
    }

    fn depth(&self) -> usize {
        self.records.len()
    }

    fn room(&self) -> usize {
        self.records.len()
    }

    fn waiting(&self) -> usize {
        self.used
    }

    fn waiting_between(&self, from: usize, to: usize) -> Result<usize, Refusal> {
        self.pair(from, to)?;
        let held = self.held().iter();
        Ok(held.filter(|r| r.from == from && r.to == to).count())
    }

    fn send(&mut self, from: usize, to: usize, tag: u32, words: &[u32]) -> Result<(), Refusal> {
        self.pair(from, to)?;
        if words.len() > Self::LIMIT {
            return Err(TOO_LONG);
        }
        if self.used == self.room() {
            let full = self.waiting_between(from, to)? == self.depth();
            return Err(if full { PAIR_FULL } else { NO_ROOM });
        }
        let mut record = Record {
            from,
            to,
            tag,
            length: words.len(),
            ..Record::default()
        };
        record.words[..words.len()].copy_from_slice(words);
        self.records[self.used] = record;
        self.used += 1;
        Ok(())
    }

    fn carry(&mut self, from: usize, to: usize) -> Result<bool, Refusal> {
        self.pair(from, to)?;
        let mut held = self.records[..self.used].iter_mut();
        match held.find(|r| r.from == from && r.to == to && !r.arrived) {
            Some(record) => {
                record.arrived = true;
                Ok(true)
            }
            None => Ok(false),
        }
    }

    fn take(
        &mut self,
        from: usize,
        to: usize,
        tag: u32,
        buffer: &mut [u32],
    ) -> Result<Option<usize>, Refusal> {
        self.pair(from, to)?;
        if buffer.len() < Self::LIMIT {
            return Err(SHORT_BUFFER);
        }
        let mut held = self.held().iter();
        let found = held.position(|r| r.from == from && r.to == to && r.arrived && r.tag == tag);
        Ok(found.map(|at| {
            let Record { length, words, .. } = self.records[at];
            buffer[..length].copy_from_slice(&words[..length]);
            self.records.copy_within(at + 1..self.used, at);
            self.used -= 1;
            length
        }))
    }
}

/// A box of slots for each ordered pair. A slot is a mark, a tag and two words: the mark is 0 in a free slot, else the
/// number of words and one more, and three more than that once the message has arrived.
pub struct Boxes<'a> {
    slots: &'a mut [[u32; 4]],
    used: usize,
    ranks: usize,
    depth: usize,
}

impl<'a> Boxes<'a> {
    pub fn new(ranks: usize, depth: usize, lent: &'a mut [u32]) -> Boxes<'a> {
        let (slots, _) = lent.as_chunks_mut();
        let sized = (1..=MOST_RANKS).contains(&ranks) && (1..=64).contains(&depth);
        if !sized || slots.len() < ranks * ranks * depth {
            return Boxes {
                slots: &mut [],
                used: 0,
                ranks: 0,
                depth: 0,
            };
        }
        let slots = &mut slots[..ranks * ranks * depth];
        slots.fill([0; 4]);
        Boxes {
            slots,
            used: 0,
            ranks,
            depth,
        }
    }

    fn slots_of(&mut self, from: usize, to: usize) -> &mut [[u32; 4]] {
        let first = (from * self.ranks + to) * self.depth;
        &mut self.slots[first..first + self.depth]
    }
}

impl Wire for Boxes<'_> {
    const LIMIT: usize = 2;

    fn ranks(&self) -> usize {
        self.ranks
    }

    fn depth(&self) -> usize {
        self.depth
    }

    fn room(&self) -> usize {
        self.slots.len()
    }

    fn waiting(&self) -> usize {
        self.used
    }

    fn waiting_between(&self, from: usize, to: usize) -> Result<usize, Refusal> {
        self.pair(from, to)?;
        let first = (from * self.ranks + to) * self.depth;
        let slots = self.slots[first..first + self.depth].iter();
        Ok(slots.take_while(|slot| slot[0] != 0).count())
    }

    fn send(&mut self, from: usize, to: usize, tag: u32, words: &[u32]) -> Result<(), Refusal> {
        self.pair(from, to)?;
        if words.len() > Self::LIMIT {
            return Err(TOO_LONG);
        }
        let room = self.room();
        let used = self.used;
        let mut slots = self.slots_of(from, to).iter_mut();
        let slot = slots.find(|slot| slot[0] == 0).ok_or(PAIR_FULL)?;
        if used == room {
            return Err(NO_ROOM);
        }
        *slot = [words.len() as u32 + 1, tag, 0, 0];
        slot[2..2 + words.len()].copy_from_slice(words);
        self.used += 1;
        Ok(())
    }

    fn carry(&mut self, from: usize, to: usize) -> Result<bool, Refusal> {
        self.pair(from, to)?;
        if self.used == 0 {
            return Ok(false);
        }
        let mut slots = self.slots_of(from, to).iter_mut();
        match slots.find(|slot| (1..=3).contains(&slot[0])) {
            Some(slot) => {
                slot[0] += 3;
                Ok(true)
            }
            None => Ok(false),
        }
    }

    fn take(
        &mut self,
        from: usize,
        to: usize,
        tag: u32,
        buffer: &mut [u32],
    ) -> Result<Option<usize>, Refusal> {
        self.pair(from, to)?;
        if buffer.len() < Self::LIMIT {
            return Err(SHORT_BUFFER);
        }
        if self.used == 0 {
            return Ok(None);
        }
        let slots = self.slots_of(from, to);
        let Some(at) = slots.iter().position(|slot| slot[0] >= 4 && slot[1] == tag) else {
            return Ok(None);
        };
        let [mark, _, words @ ..] = slots[at];
        let length = mark as usize - 4;
        buffer[..length].copy_from_slice(&words[..length]);
        slots[at..].rotate_left(1);
        slots[slots.len() - 1] = [0; 4];
        self.used -= 1;
        Ok(Some(length))
    }
}

/// Messages of up to seven words, each cut into segments for the wire below.
pub struct Cut<W> {
    below: W,
    ranks: usize,
}

/// A message, its length in front, fills as many words.
const BLOCK: usize = 8;

impl<W: Wire> Cut<W> {
    const PIECES: usize = if W::LIMIT == 0 {
        1
    } else {
        BLOCK.div_ceil(W::LIMIT)
    };

    pub fn new(below: W) -> Cut<W> {
        let open = W::LIMIT > 0
            && below.waiting() == 0
            && below.depth() >= Self::PIECES
            && below.room() >= Self::PIECES;
        let ranks = if open { below.ranks() } else { 0 };
        Cut { below, ranks }
    }

    fn whole(&self, pieces: usize) -> usize {
        if self.ranks > 0 {
            pieces / Self::PIECES
        } else {
            0
        }
    }
}

impl<W: Wire> Wire for Cut<W> {
    const LIMIT: usize = BLOCK - 1;

    fn ranks(&self) -> usize {
        self.ranks
    }

    fn depth(&self) -> usize {
        self.whole(self.below.depth())
    }

    fn room(&self) -> usize {
        self.whole(self.below.room())
    }

    fn waiting(&self) -> usize {
        self.whole(self.below.waiting())
    }

    fn waiting_between(&self, from: usize, to: usize) -> Result<usize, Refusal> {
        self.pair(from, to)?;
        Ok(self.whole(self.below.waiting_between(from, to)?))
    }

    fn send(&mut self, from: usize, to: usize, tag: u32, words: &[u32]) -> Result<(), Refusal> {
        self.pair(from, to)?;
        if words.len() > Self::LIMIT {
            return Err(TOO_LONG);
        }
        if self.waiting_between(from, to)? >= self.depth() {
            return Err(PAIR_FULL);
        }
        if self.waiting() >= self.room() {
            return Err(NO_ROOM);
        }
        let mut block = [0; BLOCK];
        block[0] = words.len() as u32;
        block[1..=words.len()].copy_from_slice(words);
        let mut pieces = block.chunks(W::LIMIT);
        pieces.try_for_each(|piece| self.below.send(from, to, tag, piece))
    }

    fn carry(&mut self, from: usize, to: usize) -> Result<bool, Refusal> {
        self.pair(from, to)?;
        // Where no first segment is under way, no message is.
        if !self.below.carry(from, to)? {
            return Ok(false);
        }
        for _ in 1..Self::PIECES {
            self.below.carry(from, to)?;
        }
        Ok(true)
    }

    fn take(
        &mut self,
        from: usize,
        to: usize,
        tag: u32,
        buffer: &mut [u32],
    ) -> Result<Option<usize>, Refusal> {
        self.pair(from, to)?;
        if buffer.len() < Self::LIMIT {
            return Err(SHORT_BUFFER);
        }
        let mut block = [0; 2 * BLOCK];
        for piece in 0..Self::PIECES {
            let rest = &mut block[piece * W::LIMIT..];
            if self.below.take(from, to, tag, rest)?.is_none() {
                return Ok(None);
            }
        }
        let length = block[0] as usize;
        buffer[..length].copy_from_slice(&block[1..=length]);
        Ok(Some(length))
    }
}

/// Some ranks of the wire below, numbered anew.
pub struct Members<W> {
    below: W,
    members: [usize; MOST_RANKS],
    count: usize,
}

impl<W: Wire> Members<W> {
    pub fn new(below: W, listed: &[usize]) -> Members<W> {
        let mut members = [0; MOST_RANKS];
        let mut seen = 0u64;
        let good = listed.len() <= MOST_RANKS
            && below.waiting() == 0
            && listed.iter().all(|&rank| {
                let fresh = rank < below.ranks() && seen & 1 << rank == 0;
                seen |= if fresh { 1 << rank } else { 0 };
                fresh
            });
        let count = if good { listed.len() } else { 0 };
        members[..count].copy_from_slice(&listed[..count]);
        Members {
            below,
            members,
            count,
        }
    }
}

impl<W: Wire> Wire for Members<W> {
    const LIMIT: usize = W::LIMIT;

    fn ranks(&self) -> usize {
        self.count
    }

    fn depth(&self) -> usize {
        if self.count > 0 {
            self.below.depth()
        } else {
            0
        }
    }

    fn room(&self) -> usize {
        if self.count > 0 { self.below.room() } else { 0 }
    }

    fn waiting(&self) -> usize {
        if self.count > 0 {
            self.below.waiting()
        } else {
            0
        }
    }

    fn waiting_between(&self, from: usize, to: usize) -> Result<usize, Refusal> {
        self.pair(from, to)?;
        let (from, to) = (self.members[from], self.members[to]);
        self.below.waiting_between(from, to)
    }

    fn send(&mut self, from: usize, to: usize, tag: u32, words: &[u32]) -> Result<(), Refusal> {
        self.pair(from, to)?;
        let (from, to) = (self.members[from], self.members[to]);
        self.below.send(from, to, tag, words)
    }

    fn carry(&mut self, from: usize, to: usize) -> Result<bool, Refusal> {
        self.pair(from, to)?;
        let (from, to) = (self.members[from], self.members[to]);
        self.below.carry(from, to)
    }

    fn take(
        &mut self,
        from: usize,
        to: usize,
        tag: u32,
        buffer: &mut [u32],
    ) -> Result<Option<usize>, Refusal> {
        self.pair(from, to)?;
        let (from, to) = (self.members[from], self.members[to]);
        self.below.take(from, to, tag, buffer)
    }
}
