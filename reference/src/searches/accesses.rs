//! The accesses of a running search: each is counted by its kind and marked in the tally.

use crate::lists::PoseSet;

pub struct Accesses<'a> {
    pub set: PoseSet<'a>,
    /// Item d's position in list i at (i-1) x n + d, as the list check leaves it.
    positions: &'a [u16],
    pub tally: Vec<u8>,
    met: Vec<bool>,
    pub sorted: u32,
    pub direct: u32,
    pub random: u32,
}

impl<'a> Accesses<'a> {
    pub fn none_yet(set: PoseSet<'a>, positions: &'a [u16]) -> Accesses<'a> {
        Accesses {
            set,
            positions,
            tally: vec![0; set.m * set.n],
            met: vec![false; set.n],
            sorted: 0,
            direct: 0,
            random: 0,
        }
    }

    pub fn sorted_access(&mut self, list: usize, position: usize) -> usize {
        self.sorted += 1;
        self.visit(list, position)
    }

    pub fn direct_access(&mut self, list: usize, position: usize) -> usize {
        self.direct += 1;
        self.visit(list, position)
    }

    /// One random access in each list but the one where the item was found. An item met before is
    /// no reason to skip any.
    pub fn random_accesses(&mut self, found_in: usize, item: usize) {
        for list in self.set.lists() {
            if list != found_in {
                self.random += 1;
                self.visit(list, self.position_of(list, item));
            }
        }
    }

    fn visit(&mut self, list: usize, position: usize) -> usize {
        let item = self.set.item_at(list, position);
        self.tally[self.set.place(list, position)] += 1;
        self.met[item] = true;
        item
    }

    pub fn position_of(&self, list: usize, item: usize) -> usize {
        usize::from(self.positions[(list - 1) * self.set.n + item])
    }

    pub fn is_visited(&self, list: usize, position: usize) -> bool {
        self.tally[self.set.place(list, position)] > 0
    }

    /// The largest b with all of positions 1 to b visited. The first gap ends it, however deep
    /// other visits went.
    pub fn best_position(&self, list: usize) -> usize {
        self.set
            .positions()
            .take_while(|&position| self.is_visited(list, position))
            .count()
    }

    pub fn is_met(&self, item: usize) -> bool {
        self.met[item]
    }

    pub fn items_met(&self) -> impl Iterator<Item = usize> + '_ {
        (0..self.set.n).filter(|&item| self.is_met(item))
    }
}

#[cfg(test)]
mod tests {
    use super::*;

    const ITEMS: [u16; 5] = [0, 1, 2, 3, 4];
    const SCORES: [u16; 5] = [9, 8, 7, 6, 5];
    const POSITIONS: [u16; 5] = [1, 2, 3, 4, 5];

    fn one_list() -> Accesses<'static> {
        let set = PoseSet {
            m: 1,
            n: 5,
            items: &ITEMS,
            scores: &SCORES,
        };
        Accesses::none_yet(set, &POSITIONS)
    }

    #[test]
    fn with_1_2_and_4_visited_the_best_position_is_2() {
        let mut accesses = one_list();
        for position in [4, 1, 2] {
            accesses.sorted_access(1, position);
        }
        assert_eq!(accesses.best_position(1), 2);
    }

    #[test]
    fn the_best_position_starts_at_0_and_ends_at_n() {
        let mut accesses = one_list();
        assert_eq!(accesses.best_position(1), 0);
        for position in [5, 3, 2, 4] {
            accesses.direct_access(1, position);
            assert_eq!(accesses.best_position(1), 0);
        }
        accesses.direct_access(1, 1);
        assert_eq!(accesses.best_position(1), 5);
    }

    #[test]
    fn each_kind_of_access_has_its_own_count() {
        let mut accesses = one_list();
        accesses.sorted_access(1, 1);
        accesses.direct_access(1, 2);
        accesses.direct_access(1, 2);
        // The only list is the one where the item was found.
        accesses.random_accesses(1, 0);
        assert_eq!(
            (accesses.sorted, accesses.direct, accesses.random),
            (1, 2, 0)
        );
        assert_eq!(accesses.tally, [1, 2, 0, 0, 0]);
        assert_eq!(accesses.items_met().collect::<Vec<_>>(), [0, 1]);
    }
}
