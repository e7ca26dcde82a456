//! Stack, count chains, buckets and section boundaries, kept by a constant number of link words each.
use super::{bucket_of, Boundary, Cache};
use crate::reference::directory::{entry, header, NEW};

/// A list linked both ways: the words of its ends and of its entries' links.
pub struct List {
    head: usize,
    tail: usize,
    to_head: usize,
    to_tail: usize,
}

const STACK: List =
    List { head: header::HEAD, tail: header::TAIL, to_head: entry::TOWARDS_HEAD, to_tail: entry::TOWARDS_TAIL };

impl<const LOOP: bool> Cache<'_, LOOP> {
    /// Moves the resident at position 0, or one that leaves, from its chain to that of its new count; 0 is no count.
    pub fn recount(&mut self, e: u32, count: u32) {
        let before = self.of(e, entry::COUNT);
        if before != 0 && before <= self.s.cmax {
            self.unlink(&self.chain(before), e);
        }
        if count != 0 && count <= self.s.cmax {
            self.push(&self.chain(count), e);
        } else {
            self.link_of(e, entry::CHAIN_TOWARDS_HEAD, 0);
            self.link_of(e, entry::CHAIN_TOWARDS_TAIL, 0);
        }
        self.number_of(e, entry::COUNT, count);
        self.set_number(header::SUM, self.at(header::SUM) - before + count);
    }

    pub fn chain(&self, count: u32) -> List {
        let (head, tail) = (self.map.chain_head(count), self.map.chain_tail(count));
        List { head, tail, to_head: entry::CHAIN_TOWARDS_HEAD, to_tail: entry::CHAIN_TOWARDS_TAIL }
    }

    fn section_at(&self, position: u32) -> u32 {
        self.boundaries.iter().filter(|boundary| boundary.0 <= position).map(|boundary| boundary.2).max().unwrap_or(NEW)
    }

    /// The residents before a boundary move down by one: the last of them steps over it.
    fn step_down(&mut self, (position, word, section): Boundary, moved_to_front: u32) {
        if position == 0 {
            return self.set_link(word, moved_to_front);
        }
        let up = match self.at(word) {
            0 => self.at(header::TAIL),
            first => self.of(first, entry::TOWARDS_HEAD),
        };
        self.set_link(word, up);
        self.number_of(up, entry::SECTION, section);
    }

    pub fn move_to_front(&mut self, e: u32) {
        if e == self.at(header::HEAD) {
            return;
        }
        let from = self.of(e, entry::SECTION);
        for boundary in self.boundaries {
            if from >= boundary.2 {
                self.step_down(boundary, e);
            }
        }
        self.number_of(e, entry::SECTION, self.section_at(0));
        self.unlink(&STACK, e);
        self.push(&STACK, e);
    }

    pub fn put_in_front(&mut self, e: u32) {
        let r = self.at(header::RESIDENTS);
        for boundary in self.boundaries {
            if r >= boundary.0 {
                self.step_down(boundary, e);
            }
        }
        self.number_of(e, entry::SECTION, self.section_at(0));
        self.push(&STACK, e);
        self.set_number(header::RESIDENTS, r + 1);
    }

    /// Off the stack: the residents behind move up, and the first of a section behind steps over its boundary.
    pub fn leave(&mut self, e: u32) {
        let from = self.of(e, entry::SECTION);
        for (position, word, section) in self.boundaries {
            let first = self.at(word);
            if first == 0 || (first != e && from >= section) {
                continue;
            }
            self.set_link(word, self.of(first, entry::TOWARDS_TAIL));
            if first != e {
                self.number_of(first, entry::SECTION, self.section_at(position - 1));
            }
        }
        self.unlink(&STACK, e);
        self.set_number(header::RESIDENTS, self.at(header::RESIDENTS) - 1);
    }

    /// Off its bucket's list.
    pub fn unlist(&mut self, e: u32) {
        let mut address = bucket_of(self.map, self.of(e, entry::BLOCK));
        while self.at(address) != e {
            address = self.map.entry(self.at(address), entry::SYNONYM);
        }
        self.set_link(address, self.of(e, entry::SYNONYM));
    }

    pub fn push(&mut self, list: &List, e: u32) {
        let first = self.at(list.head);
        self.link_of(e, list.to_head, 0);
        self.link_of(e, list.to_tail, first);
        self.set_link(list.head, e);
        match first {
            0 => self.set_link(list.tail, e),
            _ => self.link_of(first, list.to_head, e),
        }
    }

    fn unlink(&mut self, list: &List, e: u32) {
        let (before, after) = (self.of(e, list.to_head), self.of(e, list.to_tail));
        match before {
            0 => self.set_link(list.head, after),
            _ => self.link_of(before, list.to_tail, after),
        }
        match after {
            0 => self.set_link(list.tail, before),
            _ => self.link_of(after, list.to_head, before),
        }
    }
}
