//! The files that are read and written. Numbers are little-endian words; a name that ends in .f32 has packed floats, one
//! that ends in .u32 packed words, one that ends in .u8 packed bytes, any other text with one pane, ray, loss, span or quarter
//! hour a line.
use crate::failure::Failure;
use funnelcress::{MAX_POSITIONS, Pane, Ray, Record, Span, Tree};
use std::fs;
use std::str::FromStr;

pub fn bytes(name: &str) -> Result<Vec<u8>, Failure> {
    fs::read(name).map_err(|e| Failure::file(name, e))
}

pub fn write(name: &str, bytes: &[u8]) -> Result<(), Failure> {
    fs::write(name, bytes).map_err(|e| Failure::file(name, e))
}

/// Whole words.
fn words(name: &str, bytes: &[u8]) -> Result<Vec<u32>, Failure> {
    let (words, rest) = bytes.as_chunks::<4>();
    if !rest.is_empty() {
        return Err(Failure::file(name, "its length is no multiple of 4 bytes"));
    }
    Ok(words.iter().map(|w| u32::from_le_bytes(*w)).collect())
}

pub fn to_bytes(words: &[u32]) -> Vec<u8> {
    words.iter().flat_map(|w| w.to_le_bytes()).collect()
}

/// A tree as `showrecord` reads it: n, leaf limit, order, node words, n index words.
pub fn tree(name: &str) -> Result<(Tree, u32, u32), Failure> {
    let all = words(name, &bytes(name)?)?;
    let [n, limit, order, rest @ ..] = all.as_slice() else {
        return Err(Failure::file(name, "it has no room for n, leaf limit and order"));
    };
    let Some(from) = rest.len().checked_sub(*n as usize) else {
        return Err(Failure::file(name, format!("it has fewer words than its n, {n}")));
    };
    Ok((Tree::from_words(rest[..from].to_vec(), rest[from..].to_vec()), *limit, *order))
}

pub fn tree_bytes(tree: &Tree, limit: u32, order: u32) -> Vec<u8> {
    let n = tree.indices().len() as u32;
    to_bytes(&[&[n, limit, order], tree.words(), tree.indices()].concat())
}

/// A record as `checkrecord` reads it: n, and then its bytes. An n past the bound is refused whatever it is.
pub fn record(name: &str) -> Result<(usize, Vec<u8>), Failure> {
    let all = bytes(name)?;
    let Some((n, record)) = all.split_first_chunk::<4>() else {
        return Err(Failure::file(name, "it has no room for n"));
    };
    Ok(((u32::from_le_bytes(*n) as usize).min(MAX_POSITIONS + 1), record.to_vec()))
}

pub fn record_bytes(record: &Record) -> Vec<u8> {
    [&(record.positions() as u32).to_le_bytes(), record.bytes()].concat()
}

pub fn list(name: &str) -> Result<Vec<u32>, Failure> {
    words(name, &bytes(name)?)
}

/// What each line of a text says, but for empty ones and remarks.
fn lines<T>(name: &str, all: Vec<u8>, read: impl Fn(&str) -> Result<T, String>) -> Result<Vec<T>, Failure> {
    let text = String::from_utf8(all)
        .map_err(|_| Failure::file(name, "it is no text; packed numbers end in .f32, .u32 or .u8"))?;
    let lines = text.lines().enumerate().filter(|(_, l)| !l.trim().is_empty() && !l.trim_start().starts_with('#'));
    lines.map(|(k, line)| read(line).map_err(|e| Failure::file(name, format!("line {}: {e}", k + 1)))).collect()
}

/// Groups of so many floats, packed or a line each.
fn floats<const N: usize>(name: &str) -> Result<Vec<[f32; N]>, Failure> {
    let all = bytes(name)?;
    if name.ends_with(".f32") {
        let packed = words(name, &all)?;
        let (groups, rest) = packed.as_chunks::<N>();
        if !rest.is_empty() {
            return Err(Failure::file(name, format!("it is no whole number of groups of {N} floats")));
        }
        return Ok(groups.iter().map(|g| g.map(f32::from_bits)).collect());
    }
    lines(name, all, group)
}

/// A line's first floats; what stands behind them, as a name, is left.
fn group<const N: usize>(line: &str) -> Result<[f32; N], String> {
    let mut parts = parts(line);
    let mut out = [0.0; N];
    for (k, x) in out.iter_mut().enumerate() {
        let part = parts.next().ok_or(format!("{N} numbers are needed, {k} are there"))?;
        *x = part.parse().map_err(|_| format!("{part} is no number"))?;
    }
    Ok(out)
}

/// What stands in a line between blanks and commas.
fn parts(line: &str) -> impl Iterator<Item = &str> {
    line.split([' ', '\t', ',']).filter(|p| !p.is_empty())
}

/// A word for each pane, packed or a line each.
pub fn losses(name: &str) -> Result<Vec<u32>, Failure> {
    let all = bytes(name)?;
    if name.ends_with(".u32") {
        return words(name, &all);
    }
    Ok(lines(name, all, whole)?.into_iter().map(|[loss]| loss).collect())
}

/// A span for each pane: two packed bytes, or two numbers a line.
pub fn spans(name: &str) -> Result<Vec<Span>, Failure> {
    let all = bytes(name)?;
    if name.ends_with(".u8") {
        let (spans, rest) = all.as_chunks::<2>();
        if !rest.is_empty() {
            return Err(Failure::file(name, "its length is no multiple of 2 bytes"));
        }
        return Ok(spans.to_vec());
    }
    lines(name, all, whole)
}

/// A quarter hour for each ray, packed or a line each.
pub fn quarters(name: &str) -> Result<Vec<u8>, Failure> {
    let all = bytes(name)?;
    if name.ends_with(".u8") {
        return Ok(all);
    }
    Ok(lines(name, all, whole)?.into_iter().map(|[quarter]| quarter).collect())
}

/// A line's whole numbers; a name may stand behind them, but no other number, as in a file of panes.
fn whole<T: Copy + Default + FromStr, const N: usize>(line: &str) -> Result<[T; N], String> {
    let needed = if N == 1 { "one number is needed".into() } else { format!("{N} numbers are needed") };
    let mut parts = parts(line);
    let mut out = [T::default(); N];
    let first: Vec<&str> = parts.by_ref().take(N).collect();
    if first.len() < N {
        return Err(format!("{needed}, {} are there", first.len()));
    }
    if parts.any(|p| p.parse::<f32>().is_ok()) {
        return Err(format!("{needed}, more are there"));
    }
    for (x, part) in out.iter_mut().zip(first) {
        *x = part.parse().map_err(|_| format!("{part} is no whole number of {} bits", 8 * size_of::<T>()))?;
    }
    Ok(out)
}

pub fn panes(name: &str) -> Result<Vec<Pane>, Failure> {
    floats::<6>(name)
}

pub fn rays(name: &str) -> Result<Vec<Ray>, Failure> {
    Ok(floats::<8>(name)?.into_iter().map(Ray::from).collect())
}
