//! The lines that need no tracker: each asks one function of the original sources, or one stand-in.
use crate::oc_sort_tracker::{
    associate, convert_bbox_to_z, convert_x_to_bbox, iou_batch, speed_direction, takes_shortcut, DetectBox,
    KalmanFilter,
};
#[cfg(not(feature = "plain"))]
use crate::stand_ins::StandIns;
use crate::state::Filter;
use crate::words::{put_f32s, put_f64, put_whole, Fault, Words, NUMBERS};
use nalgebra::SMatrix;

/// Answers the line that starts with `word`, or says that there is no such line.
pub fn answer(word: &str, words: &mut Words, out: &mut Vec<u8>) -> Result<bool, Fault> {
    match word {
        "lap" => return lap(words, out, false).map(|_| true),
        "lapreads" => return lap(words, out, true).map(|_| true),
        "lapint" => return whole_lap(words, out).map(|_| true),
        "assoc" => return assoc(words, out).map(|_| true),
        "shortcuts" => return shortcuts(words, out).map(|_| true),
        "widen" => {
            let x = words.f32()?;
            words.end()?;
            put_f64(out, x as f64);
            out.push(b'\n');
        }
        "inverse" => {
            let inverse = SMatrix::<f32, 4, 4>::from_row_slice(&all::<16>(words)?).try_inverse();
            match inverse {
                Some(m) => put_numbers(out, &m.rows()),
                None => out.extend(b"none\n"),
            }
        }
        "predict" | "update" | "replay" => put_filter(out, &filter(word, words)?),
        _ => match numbers(word, words)? {
            Some(answer) => put_numbers(out, &answer),
            None => return Ok(false),
        },
    }
    Ok(true)
}

fn all<const N: usize>(words: &mut Words) -> Result<[f32; N], Fault> {
    let numbers = words.f32s()?;
    words.end()?;
    Ok(numbers)
}

fn numbers(word: &str, words: &mut Words) -> Result<Option<Vec<f32>>, Fault> {
    Ok(Some(match word {
        "sqrt" => all::<1>(words)?.map(sqrt).to_vec(),
        "acos" => all::<1>(words)?.map(acos).to_vec(),
        "clamp" => all::<1>(words)?.map(clamp).to_vec(),
        "max" => {
            let [a, b] = all(words)?;
            vec![max(a, b)]
        }
        "min" => {
            let [a, b] = all(words)?;
            vec![min(a, b)]
        }
        "iou" => {
            let h: [f32; 8] = all(words)?;
            vec![iou_batch(&[[h[0], h[1], h[2], h[3]]], &[[h[4], h[5], h[6], h[7]]])[(0, 0)]]
        }
        "measure" => convert_bbox_to_z(&all::<4>(words)?).rows(),
        "box" => {
            let [x, y, s, r] = all(words)?;
            convert_x_to_bbox(x, y, s, r).to_vec()
        }
        "dir" => {
            let h: [f32; 8] = all(words)?;
            speed_direction(&h[..4], &h[4..]).to_vec()
        }
        "product" => return product(words).map(Some),
        _ => return Ok(None),
    }))
}

#[cfg(not(feature = "plain"))]
mod floats {
    use super::StandIns;
    pub fn sqrt(x: f32) -> f32 {
        x.standin_sqrt()
    }
    pub fn acos(x: f32) -> f32 {
        x.standin_acos()
    }
    pub fn clamp(x: f32) -> f32 {
        x.standin_clamp(-1.0, 1.0)
    }
    pub fn max(a: f32, b: f32) -> f32 {
        a.standin_max(b)
    }
    pub fn min(a: f32, b: f32) -> f32 {
        a.standin_min(b)
    }
}

#[cfg(feature = "plain")]
mod floats {
    pub fn sqrt(x: f32) -> f32 {
        x.sqrt()
    }
    pub fn acos(x: f32) -> f32 {
        x.acos()
    }
    pub fn clamp(x: f32) -> f32 {
        x.clamp(-1.0, 1.0)
    }
    pub fn max(a: f32, b: f32) -> f32 {
        a.max(b)
    }
    pub fn min(a: f32, b: f32) -> f32 {
        a.min(b)
    }
}

use floats::{acos, clamp, max, min, sqrt};

/// The products that the filter forms, by their sizes.
fn product(words: &mut Words) -> Result<Vec<f32>, Fault> {
    let sizes = (words.whole()?, words.whole()?, words.whole()?);
    macro_rules! of_sizes {
        ($(($n:literal, $k:literal, $m:literal)),*) => {
            match sizes {
                $(($n, $k, $m) => {
                    let a = SMatrix::<f32, $n, $k>::from_row_slice(&words.f32s::<{ $n * $k }>()?);
                    let b = SMatrix::<f32, $k, $m>::from_row_slice(&words.f32s::<{ $k * $m }>()?);
                    (a * b).rows()
                })*
                _ => return Err(NUMBERS),
            }
        };
    }
    let answer = of_sizes!((7, 7, 1), (7, 7, 7), (7, 7, 4), (4, 7, 1), (4, 7, 4), (7, 4, 4), (7, 4, 1), (7, 4, 7));
    words.end()?;
    Ok(answer)
}

fn filter(word: &str, words: &mut Words) -> Result<Filter, Fault> {
    let gap = if word == "replay" { words.whole()? } else { 0 };
    if word == "replay" && !(2..=1_000_000).contains(&gap) {
        return Err(NUMBERS);
    }
    let list = if word == "replay" { Some(words.f32s::<4>()?) } else { None };
    let z = if word == "predict" { [0.0; 4] } else { words.f32s::<4>()? };
    let given = Filter { x: words.f32s()?, p: words.f32s()? };
    words.end()?;
    let saved = Some(&given).filter(|_| word == "replay");
    let mut filter = KalmanFilter::of_parts(&given, saved, list, gap.saturating_sub(1));
    let z = DetectBox::from_column_slice(&z);
    match word {
        "predict" => filter.predict(),
        "update" => filter.apply(&z),
        _ => filter.update(Some(&z)),
    }
    Ok(filter.numbers())
}

/// `N XLEN YLEN`, and then whether so many costs and lists of these lengths fit.
fn sizes(words: &mut Words) -> Result<(usize, impl Fn(usize) -> bool), Fault> {
    let (n, rows, columns) = (words.whole()?, words.whole()?, words.whole()?);
    Ok((n, move |costs| (1..=64).contains(&n) && costs == n * n && rows == n && columns == n))
}

fn square<T: Clone>(n: usize, costs: &[T]) -> Vec<Vec<T>> {
    costs.chunks(n).map(|row| row.to_vec()).collect()
}

fn put_pairs(out: &mut Vec<u8>, x: &[isize], y: &[isize]) {
    out.extend(b"x");
    x.iter().for_each(|&j| put_whole(out, j as usize));
    out.extend(b"\ny");
    y.iter().for_each(|&i| put_whole(out, i as usize));
    out.push(b'\n');
}

/// With the number of costs read (2.12), or without.
fn lap(words: &mut Words, out: &mut Vec<u8>, is_counted: bool) -> Result<(), Fault> {
    let (n, fit) = sizes(words)?;
    let costs = words.rest_f64()?;
    let fits = fit(costs.len());
    let (mut x, mut y) = (Vec::new(), Vec::new());
    crate::lapjv::reads();
    if fits {
        (x, y) = (vec![-1; n], vec![-1; n]);
        crate::lapjv::lapjv(&mut square(n, &costs), &mut x, &mut y).map_err(|_| "the original refused")?;
    }
    out.extend(if fits { "ok\n" } else { "refused 8\n" }.as_bytes());
    if is_counted {
        out.extend(format!("reads {}\n", crate::lapjv::reads()).as_bytes());
    }
    if fits {
        put_pairs(out, &x, &y);
    }
    Ok(())
}

fn whole_lap(words: &mut Words, out: &mut Vec<u8>) -> Result<(), Fault> {
    let (n, fit) = sizes(words)?;
    let costs = words.rest_i64()?;
    if !fit(costs.len()) {
        out.extend(b"refused 8\n");
        return Ok(());
    }
    if costs.iter().any(|c| !(-1_000_000..=1_000_000).contains(c)) {
        out.extend(b"refused 12\n");
        return Ok(());
    }
    let (mut x, mut y) = (vec![-1; n], vec![-1; n]);
    crate::whole_lapjv::lapjv(&mut square(n, &costs), &mut x, &mut y).map_err(|_| "the original refused")?;
    out.extend(b"ok\n");
    put_pairs(out, &x, &y);
    Ok(())
}

fn assoc(words: &mut Words, out: &mut Vec<u8>) -> Result<(), Fault> {
    let (nd, nt) = (words.whole()?, words.whole()?);
    if nd > 64 || nt > 64 {
        return Err(NUMBERS);
    }
    let [threshold, inertia] = words.f32s()?;
    let dets = (0..nd).map(|_| words.f32s::<5>()).collect::<Result<Vec<_>, _>>()?;
    let tracks = (0..nt).map(|_| words.f32s::<4>()).collect::<Result<Vec<_>, _>>()?;
    let directions = (0..nt).map(|_| words.f32s::<2>()).collect::<Result<Vec<_>, _>>()?;
    let previous = (0..nt).map(|_| words.f32s::<5>()).collect::<Result<Vec<_>, _>>()?;
    words.end()?;
    let found = associate(&dets, &tracks, threshold, &directions, &previous, inertia);
    let found = found.map_err(|_| "the original refused")?;
    out.extend(b"matches");
    for [d, t] in found.matches {
        out.extend(format!(" {d},{t}").as_bytes());
    }
    out.extend(b"\ndets");
    found.unmatched_dets.iter().for_each(|&d| put_whole(out, d));
    out.extend(b"\ntracks");
    found.unmatched_trks.iter().for_each(|&t| put_whole(out, t));
    out.push(b'\n');
    Ok(())
}

/// Goes through all patterns of the size; document 02, 2.14.
fn shortcuts(words: &mut Words, out: &mut Vec<u8>) -> Result<(), Fault> {
    let (rows, columns) = (words.whole()?, words.whole()?);
    words.end()?;
    let (mut shortcut, mut assignment) = (0, 0);
    if (1..=4).contains(&rows) && (1..=4).contains(&columns) {
        for pattern in 0..1u32 << (rows * columns) {
            let taken = takes_shortcut(rows, columns, |i, j| pattern >> (i * columns + j) & 1 == 1);
            *if taken { &mut shortcut } else { &mut assignment } += 1;
        }
    }
    out.extend(format!("{shortcut} {assignment}\n").as_bytes());
    Ok(())
}

fn put_numbers(out: &mut Vec<u8>, numbers: &[f32]) {
    let start = out.len();
    put_f32s(out, numbers);
    out.remove(start);
    out.push(b'\n');
}

fn put_filter(out: &mut Vec<u8>, filter: &Filter) {
    out.push(b'x');
    put_f32s(out, &filter.x);
    out.extend(b"\np");
    put_f32s(out, &filter.p);
    out.push(b'\n');
}
