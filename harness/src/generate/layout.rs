//! Order and number of rows: any order with children below, any exact count.

use crate::image::{naming_fields, Draft, Row, NONE};
use crate::random::Random;

/// Room that is used again for each image.
#[derive(Default)]
pub struct Shuffler {
    parent: Vec<u16>,
    waiting: Vec<u8>,
    ready: Vec<u16>,
    place: Vec<u16>,
    rows: Vec<Row>,
}

impl Shuffler {
    /// Puts the rows of a right draft into a random order, children before parents.
    pub fn shuffle(&mut self, draft: &mut Draft, random: &mut Random) {
        self.count_children(draft);
        self.rows.clear();
        while !self.ready.is_empty() {
            let chosen = random.below(self.ready.len());
            let old = self.ready.swap_remove(chosen);
            self.place[usize::from(old)] = self.rows.len() as u16;
            self.rows.push(self.renamed(draft.rows[usize::from(old)]));
            let parent = self.parent[usize::from(old)];
            if let Some(waiting) = self.waiting.get_mut(usize::from(parent)) {
                *waiting -= 1;
                if *waiting == 0 {
                    self.ready.push(parent);
                }
            }
        }
        let moved = |row: u16| self.place[usize::from(row)];
        draft.states.iter_mut().for_each(|row| *row = moved(*row));
        draft.condition = moved(draft.condition);
        std::mem::swap(&mut draft.rows, &mut self.rows);
    }

    fn count_children(&mut self, draft: &Draft) {
        let count = draft.rows.len();
        for list in [&mut self.parent, &mut self.place] {
            list.clear();
            list.resize(count, NONE);
        }
        self.waiting.clear();
        self.ready.clear();
        for (r, row) in draft.rows.iter().enumerate() {
            let mut children = 0;
            for child in row.children() {
                self.parent[usize::from(child)] = r as u16;
                children += 1;
            }
            self.waiting.push(children);
            if children == 0 {
                self.ready.push(r as u16);
            }
        }
    }

    /// The row with its children's new numbers.
    fn renamed(&self, mut row: Row) -> Row {
        let naming = naming_fields(row.code);
        for (i, field) in row.fields().into_iter().enumerate() {
            if naming & (1 << i) != 0 && *field != NONE {
                *field = self.place[usize::from(*field)];
            }
        }
        row
    }
}

/// Adds rows that change nothing until there are `rows`: nulls before the states'
/// actions, and a not around the condition for an odd one.
pub fn pad(draft: &mut Draft, rows: usize, random: &mut Random) {
    while draft.rows.len() + 2 <= rows {
        let state = random.below(draft.states.len());
        let null = draft.rows.len() as u16;
        let action = draft.states[state];
        draft.rows.push(Row::new(48, 0, 0, 0));
        draft.rows.push(Row::new(54, null, action, 0));
        draft.states[state] = null + 1;
    }
    if draft.rows.len() < rows {
        draft.rows.push(Row::new(16, draft.condition, 0, 0));
        draft.condition = (draft.rows.len() - 1) as u16;
    }
}

/// The longest chain of rows from one named from outside down to a leaf.
pub fn depth(rows: &[Row]) -> usize {
    let mut depths: Vec<usize> = Vec::with_capacity(rows.len());
    for row in rows {
        let below = row.children().map(|child| depths[usize::from(child)]).max();
        depths.push(1 + below.unwrap_or(0));
    }
    depths.into_iter().max().unwrap_or(0)
}
