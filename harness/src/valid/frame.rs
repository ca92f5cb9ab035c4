//! Refusals 1–4: what must hold before the rows are looked at (01, "The image").

use super::Refusal;
use crate::image::{limits, number, Image, MARK, TRAILER};

/// The image's tables, or the first of 1–4.
pub fn read(bytes: &[u8]) -> Result<Image<'_>, Refusal> {
    let wrong = |n| Refusal::new(n, 0);
    if !limits::IMAGE.contains(&bytes.len()) {
        return Err(wrong(1));
    }
    let (tables, trailer) = bytes.split_at(bytes.len() - TRAILER);
    if trailer[14..] != MARK || usize::from(number(trailer, 12)) != bytes.len() {
        return Err(wrong(2));
    }
    let mut image = split(tables, trailer).ok_or(wrong(3))?;
    if !types_are_right(&image) || !variables_are_right(&image) {
        return Err(wrong(4));
    }
    for (v, entry) in image.variables.iter().enumerate() {
        image.all |= 1 << v;
        image.parameters |= u64::from(entry[2]) << v;
    }
    Ok(image)
}

/// The four tables, if their starts rise, their sizes divide and counts fit.
fn split<'a>(tables: &'a [u8], trailer: &[u8]) -> Option<Image<'a>> {
    let [types, variables, states, rows] = [0, 2, 4, 6].map(|at| number(trailer, at).into());
    if types != 0 {
        return None;
    }
    let image = Image {
        types: entries(tables, types, variables)?,
        variables: entries(tables, variables, states)?,
        states: entries(tables, states, rows)?,
        rows: entries(tables, rows, tables.len())?,
        gates: number(trailer, 8),
        condition: number(trailer, 10),
        all: 0,
        parameters: 0,
    };
    let fits = limits::TYPES.contains(&image.types.len())
        && limits::VARIABLES.contains(&image.variables.len())
        && limits::STATES.contains(&image.states.len())
        && limits::ROWS.contains(&image.rows.len())
        && limits::GATES.contains(&image.gates.into());
    fits.then_some(image)
}

/// One table as entries of N bytes; none if it ends in a part entry.
fn entries<const N: usize>(tables: &[u8], start: usize, end: usize) -> Option<&[[u8; N]]> {
    match tables.get(start..end)?.as_chunks() {
        (whole, []) => Some(whole),
        _ => None,
    }
}

/// Bool has 2 values, int is marked by 0, others have 1..4,096.
fn types_are_right(image: &Image) -> bool {
    let others = 2..image.types.len() as u16;
    image.values(0) == 2
        && image.values(1) == 0
        && others.into_iter().all(|t| limits::VALUES.contains(&image.values(t)))
}

/// A variable has a type that exists, and 1 or 0 for a parameter.
fn variables_are_right(image: &Image) -> bool {
    let right = |entry: &[u8; 4]| {
        usize::from(number(entry, 0)) < image.types.len() && number(entry, 2) <= 1
    };
    image.variables.iter().all(right)
}
