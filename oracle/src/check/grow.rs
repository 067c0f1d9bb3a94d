//! Grows well-formed stores by random calls of the model.

use crate::check::tally::Answers;
use crate::model::calls::{free, map, uvm_alloc, uvm_unmap, uvmcreate};
use crate::model::numbers::{ENTRIES, PAGE, PAGES, PHYSICAL_END, ROOT, WINDOW};
use crate::model::walk::mapped_pages;
use crate::model::Store;
use crate::random::Random;

/// The first pages of neighbourhoods that stand at an edge of the tree.
const EDGES: [u64; 8] =
    [0, 510, 512 * 255 + 510, 512 * 256, 262_142, 262_144 * 3 + 512 * 511, PAGES / 2 - 2, PAGES - 4];

/// A store that grows, with its random choices and the count of its calls.
pub struct Growth<'a> {
    pub store: &'a mut Store,
    pub random: &'a mut Random,
    pub calls: &'a mut [Answers; 5],
}

impl Growth<'_> {
    /// Makes one random call, which may be refused, or releases a whole root.
    pub fn step(&mut self) {
        let Some(root) = self.root() else { return self.create() };
        match self.random.below(32) {
            0..=3 => self.create(),
            4..=12 => self.map(root),
            13..=23 => self.alloc(root),
            24..=28 => self.unmap(root),
            29..=30 => self.release(root),
            _ => self.free(root),
        }
    }

    /// One of the roots; now and then any table, or none.
    fn root(&mut self) -> Option<u64> {
        let tables = self.store.tables() as u64;
        if self.random.below(32) == 0 {
            return Some(self.random.below(tables + 2));
        }
        let roots: Vec<u64> = (0..tables).filter(|&table| self.store.table_marks[table as usize] == ROOT).collect();
        (!roots.is_empty()).then(|| roots[self.random.below(roots.len() as u64) as usize])
    }

    /// A page in one of few neighbourhoods, so that pages share tables; or any page.
    fn page(&mut self) -> u64 {
        match self.random.below(10) {
            0 => self.random.below(PAGES),
            1 => 262_144 * self.random.below(256) + self.random.below(2),
            edge if self.random.below(3) == 0 => EDGES[edge as usize - 2] + self.random.below(4),
            _ => EDGES[self.random.below(2) as usize] + self.random.below(64),
        }
    }

    /// A number of pages: mostly few; in a store of many tables also blocks of them.
    fn pages(&mut self) -> u64 {
        let (tables, frames) = (self.store.tables() as u64, self.store.frames() as u64);
        match self.random.below(16) {
            0 => 0,
            1 => self.random.below(600),
            2..=4 if tables > 64 => self.random.below(ENTRIES as u64 * tables / 4),
            2..=4 => 1 + self.random.below(frames / 4 + 1),
            5 => self.random.below(frames + 1),
            _ => 1 + self.random.below(4),
        }
    }

    /// An address, which is mostly that of a foreign frame.
    fn foreign(&mut self) -> u64 {
        let near = PAGE * self.random.below(8);
        match self.random.below(16) {
            0..=3 => WINDOW.start - PAGE - near,
            4..=7 => WINDOW.end + near,
            8 => WINDOW.start + self.random.below(WINDOW.end - WINDOW.start),
            9 => PHYSICAL_END - PAGE - near,
            10 => near,
            _ => self.random.uniform() >> 8,
        }
    }

    /// Permissions: common ones, any, and now and then too many.
    fn permissions(&mut self) -> u64 {
        match self.random.below(16) {
            0 => self.random.below(2048),
            1 => 0,
            2..=7 => self.random.below(1024),
            _ => [2, 6, 10, 14, 18, 22, 26, 30][self.random.below(8) as usize],
        }
    }

    fn create(&mut self) {
        let answer = uvmcreate(self.store);
        self.calls[0].count(answer);
    }

    fn map(&mut self, root: u64) {
        let inside = if self.random.below(4) == 0 { self.random.below(PAGE) } else { 0 };
        let (va, pa) = (self.page() * PAGE + inside, self.foreign());
        let (size, permissions) = (self.pages() * PAGE, self.permissions());
        let answer = map(self.store, root, va, pa, size, permissions);
        self.calls[1].count(answer);
    }

    fn alloc(&mut self, root: u64) {
        let (first, pages) = (self.page(), self.pages());
        let old = (first * PAGE).saturating_sub(self.random.below(PAGE));
        let new = ((first + pages) * PAGE).saturating_sub(self.random.below(PAGE));
        let answer = uvm_alloc(self.store, root, old, new);
        self.calls[2].count(answer);
    }

    /// Unmaps some pages from a mapped one on, mostly with freeing.
    fn unmap(&mut self, root: u64) {
        let mapped = self.mapped(root);
        if mapped.is_empty() {
            return;
        }
        let first = mapped[self.random.below(mapped.len() as u64) as usize];
        let (npages, freeing) = (1 + self.random.below(2) * self.random.below(4), self.random.below(8) != 0);
        let answer = uvm_unmap(self.store, root, first * PAGE, npages, freeing);
        self.calls[3].count(answer);
    }

    /// Unmaps every page of a root, with freeing, then frees it.
    fn release(&mut self, root: u64) {
        for run in self.mapped(root).chunk_by(|page, next| page + 1 == *next) {
            let answer = uvm_unmap(self.store, root, run[0] * PAGE, run.len() as u64, true);
            self.calls[3].count(answer);
        }
        self.free(root);
    }

    fn free(&mut self, root: u64) {
        let answer = free(self.store, root);
        self.calls[4].count(answer);
    }

    /// The mapped pages of a root; none where it is no root.
    fn mapped(&self, root: u64) -> Vec<u64> {
        match self.store.table_marks.get(root as usize) {
            Some(&ROOT) => mapped_pages(self.store, root as usize),
            _ => Vec::new(),
        }
    }
}
