//! Merged order: POS, then list 1 before list 2, then order in the list.

use crate::entry::Entry;

/// The entries of list 1 and of list 2, each in the order read.
pub type Lists<'a> = [&'a [Entry]; 2];

/// One entry of the merged order: `list` is 0 for list 1 and 1 for list 2.
#[derive(Clone, Copy, Debug, PartialEq, Eq)]
pub struct Item {
    pub list: usize,
    pub index: usize,
}

impl Item {
    pub fn of<'a>(&self, lists: Lists<'a>) -> &'a Entry {
        &lists[self.list][self.index]
    }
}

/// Both lists' entries in merged order.
pub fn merged(lists: Lists) -> Vec<Item> {
    let items_of = |list: usize| (0..lists[list].len()).map(move |index| Item { list, index });
    let mut items: Vec<Item> = items_of(0).chain(items_of(1)).collect();
    items.sort_by_key(|item| (item.of(lists).pos, item.list, item.index));
    items
}
