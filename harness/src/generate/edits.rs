//! Edits of a right draft: each aims at a number of 01's table.

use crate::image::{naming_fields, Draft, NONE};
use crate::random::Random;

/// One edit, chosen at random.
pub fn edit(draft: &mut Draft, random: &mut Random) {
    match random.below(12) {
        0..=2 => extreme_field(draft, random),
        3 => change_code(draft, random),
        4 => drop_naming(draft, random),
        5 => copy_naming(draft, random),
        6 => extreme_table(draft, random),
        7 => other_variable(draft, random),
        8 => other_target(draft, random),
        9 => swap_rows(draft, random),
        10 => other_type(draft, random),
        _ => resize(draft, random),
    }
}

/// Numbers at the edges of every count of the image, of the row and of 16 bits.
pub fn extreme(draft: &Draft, row: usize, random: &mut Random) -> u16 {
    let counts = [
        draft.rows.len(),
        draft.variables.len(),
        draft.types.len(),
        draft.states.len(),
        draft.gates.into(),
        row,
    ];
    let around = random.pick(&counts).wrapping_add(random.below(3)).wrapping_sub(1);
    match random.one_in(2) {
        true => around as u16,
        false => random.pick(&[0, 1, 0xFFFF, 0x7FFF, 0x8000, 0x7FFE]),
    }
}

fn extreme_field(draft: &mut Draft, random: &mut Random) {
    let r = random.below(draft.rows.len());
    let value = extreme(draft, r, random);
    *draft.rows[r].fields()[random.below(3)] = value;
}

/// A neighbouring code, or any, under the same fields.
fn change_code(draft: &mut Draft, random: &mut Random) {
    let r = random.below(draft.rows.len());
    let code = &mut draft.rows[r].code;
    *code = match random.below(4) {
        0 => code.wrapping_add(1),
        1 => code.wrapping_sub(1),
        2 => *code ^ random.pick(&[0x100, 0x8000, 64, 32, 16]),
        _ => random.below(64) as u16,
    };
}

/// A naming field put to none: refused here, or the row below is named no more.
fn drop_naming(draft: &mut Draft, random: &mut Random) {
    if let Some((r, i)) = naming(draft, random) {
        *draft.rows[r].fields()[i] = NONE;
    }
}

/// A row named by two: a field takes what another field of that code names.
fn copy_naming(draft: &mut Draft, random: &mut Random) {
    let Some((r, i)) = naming(draft, random) else {
        return;
    };
    let code = draft.rows[r].code;
    let from = (0..r).rev().find(|&other| draft.rows[other].code == code);
    match from {
        Some(other) => {
            let value = *draft.rows[other].fields()[i];
            *draft.rows[r].fields()[i] = value;
        }
        None => {
            let state = random.below(draft.states.len());
            draft.states[state] = draft.states[random.below(draft.states.len())];
        }
    }
}

/// A row and one of its fields that names a row.
fn naming(draft: &mut Draft, random: &mut Random) -> Option<(usize, usize)> {
    for _ in 0..8 {
        let r = random.below(draft.rows.len());
        let i = random.below(3);
        let naming = naming_fields(draft.rows[r].code) & (1 << i) != 0;
        if naming && *draft.rows[r].fields()[i] != NONE {
            return Some((r, i));
        }
    }
    None
}

fn extreme_table(draft: &mut Draft, random: &mut Random) {
    let value = extreme(draft, 0, random);
    match random.below(6) {
        0 => *random_of(&mut draft.types, random) = value,
        1 if !draft.variables.is_empty() => random_of(&mut draft.variables, random).0 = value,
        2 if !draft.variables.is_empty() => random_of(&mut draft.variables, random).1 = value,
        3 => draft.gates = value,
        4 => draft.condition = value,
        _ => *random_of(&mut draft.states, random) = value,
    }
}

fn random_of<'a, T>(list: &'a mut [T], random: &mut Random) -> &'a mut T {
    let chosen = random.below(list.len());
    &mut list[chosen]
}

/// A row that has a variable gets another one: type, binding or an unset variable.
fn other_variable(draft: &mut Draft, random: &mut Random) {
    let has = |code: u16| matches!(code, 1 | 33 | 44..=47);
    for _ in 0..16 {
        let r = random.below(draft.rows.len());
        if has(draft.rows[r].code) {
            draft.rows[r].a = random.below(draft.variables.len()) as u16;
            return;
        }
    }
}

/// A jump becomes a null or leads elsewhere; a null becomes a jump.
fn other_target(draft: &mut Draft, random: &mut Random) {
    for _ in 0..16 {
        let r = random.below(draft.rows.len());
        let row = &mut draft.rows[r];
        if !matches!(row.code, 48 | 53) {
            continue;
        }
        match random.below(3) {
            0 => (row.code, row.a) = (48, 0),
            _ => (row.code, row.a) = (53, random.below(draft.states.len()) as u16),
        }
        return;
    }
}

fn swap_rows(draft: &mut Draft, random: &mut Random) {
    let one = random.below(draft.rows.len());
    let other = random.below(draft.rows.len());
    draft.rows.swap(one, other);
}

/// Another type for a variable, or it is a parameter and was none.
fn other_type(draft: &mut Draft, random: &mut Random) {
    if draft.variables.is_empty() {
        return;
    }
    let types = draft.types.len();
    let variable = random_of(&mut draft.variables, random);
    match random.one_in(2) {
        true => variable.0 = random.below(types) as u16,
        false => variable.1 ^= 1,
    }
}

/// A table one longer or shorter.
fn resize(draft: &mut Draft, random: &mut Random) {
    match random.below(6) {
        0 => draft.types.push(random.below(4) as u16),
        1 => drop(draft.types.pop()),
        2 => draft.states.push(random.below(draft.rows.len()) as u16),
        3 => drop(draft.states.pop()),
        4 => drop(draft.variables.pop()),
        _ => drop(draft.rows.pop()),
    }
}
