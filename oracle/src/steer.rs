//! Steers a frame: picks a mood, who is to be hit, and makes what the frame lends.

use crate::frame::Lent;
use crate::levels::{Levels, Noise};
use crate::plan::{Plan, Temper};
use crate::rng::Rng;
use crate::room;
use crate::stand_ins::desk::ReidMaker;
use std::rc::Rc;

/// A record kept by step 1, as far as steering needs it.
pub struct Kept {
    pub global_id: i32,
    pub initializing: bool,
    pub hit_counter: i32,
    /// Its history holds nothing but entries with an age, if any.
    pub merged_only: bool,
    /// Where it will be after the predict.
    pub ahead: Vec<f64>,
}

/// The record that a shunning trace leaves unhit.
fn shunned(plan: &Plan, kept: &[Kept]) -> Option<i32> {
    let wanted = |k: &&Kept| plan.shun && k.initializing && k.merged_only;
    kept.iter().find(wanted).map(|k| k.global_id)
}

#[derive(Clone, Copy, PartialEq)]
enum Mood {
    Calm,
    Silence,
    Starve,
    Births,
    Candidates,
    Revive,
    Chaos,
}

fn mood(rng: &mut Rng, plan: &Plan, kept: &[Kept]) -> Mood {
    use Mood::*;
    let crowded = plan.crowd > 8 && kept.len() < 32;
    if kept.is_empty() && rng.chance(85) || crowded && rng.chance(60) {
        return Births;
    }
    let shunned = shunned(plan, kept);
    let young = kept.iter().any(|k| k.initializing && Some(k.global_id) != shunned);
    let fallen = kept.iter().filter(|k| k.initializing && k.hit_counter < 0).count();
    match plan.temper {
        Temper::Reid if !young && rng.chance(60) => Births,
        Temper::Calm if rng.chance(50) => Calm,
        Temper::Calm => rng.pick(&[Starve, Silence, Births, Births, Candidates]),
        Temper::Chaos if rng.chance(65) => Chaos,
        Temper::Chaos => rng.pick(&[Calm, Births, Silence]),
        Temper::Reid if rng.chance(40) => Candidates,
        Temper::Reid => rng.pick(&[Births, Births, Calm, Calm, Starve, Silence]),
        Temper::Revive if fallen > 0 && rng.chance(if fallen > 1 { 65 } else { 30 }) => Revive,
        Temper::Revive if rng.chance(40) => Starve,
        Temper::Revive => rng.pick(&[Births, Births, Births, Silence, Candidates, Calm]),
        Temper::Overflow => rng.pick(&[Calm, Calm, Calm, Calm, Births, Chaos, Candidates, Starve]),
        Temper::Mixed => rng.pick(&[Calm, Silence, Starve, Births, Candidates, Revive, Chaos]),
    }
}

/// The chance in percent that a record is aimed at.
fn aim(mood: Mood, kept: &Kept) -> usize {
    let fallen = kept.hit_counter < 0;
    match (mood, kept.initializing) {
        (Mood::Silence | Mood::Chaos, _) => 0,
        (Mood::Calm, _) => 80,
        (Mood::Starve, _) => 12,
        (Mood::Births, _) => 55,
        (Mood::Candidates, true) => 90,
        (Mood::Candidates, false) => 20,
        (Mood::Revive, true) => if fallen { 92 } else { 30 },
        (Mood::Revive, false) => 30,
    }
}

/// For each detection the column it aims at, or none.
fn targets(rng: &mut Rng, mood: Mood, kept: &[Kept], plan: &Plan) -> Vec<Option<usize>> {
    let crowd = plan.crowd;
    let shunned = shunned(plan, kept);
    let mut list: Vec<Option<usize>> = Vec::new();
    for (column, record) in kept.iter().enumerate() {
        let left = shunned == Some(record.global_id);
        if rng.chance(if left { 3 } else { aim(mood, record) }) {
            list.push(Some(column));
        }
    }
    rng.shuffle(&mut list);
    let extra = match mood {
        Mood::Silence | Mood::Starve => 0,
        Mood::Births => rng.between((1 + crowd as i32) / 2, crowd as i32) as usize,
        Mood::Chaos => rng.below(crowd + 3),
        Mood::Calm | Mood::Candidates | Mood::Revive => rng.below(3) / 2 + rng.below(2),
    };
    list.truncate(32 - extra.min(32));
    list.resize(list.len() + extra, None);
    list.truncate(32);
    rng.shuffle(&mut list);
    list
}

fn period(rng: &mut Rng, kind: usize) -> i32 {
    match kind {
        0 => 1,
        1 => rng.pick(&[1, 1, 1, 2, 3, 4, 5]),
        _ => match rng.below(12) {
            0..=6 => 1,
            7..=9 => rng.between(2, 5),
            10 => rng.between(6, 1000),
            _ => rng.pick(&[10, 100, 1000]),
        },
    }
}

fn coordinate(rng: &mut Rng, wild: bool, near: Option<f64>) -> f64 {
    if wild && rng.chance(40) {
        let huge = rng.pick(&[1e308, -1e308, f64::MAX, f64::MIN, 1e300, 5e-324]);
        return huge * rng.pick(&[1.0, 1.0, 0.75]);
    }
    match (rng.below(20), near) {
        (0, _) => 0.0,
        (1, _) => -0.0,
        (2, _) => rng.pick(&[1e-310, -5e-324, 1e17, 8.0, -3.0]),
        (3..=15, Some(x)) if x.is_finite() && x.abs() < 1e300 => x + 4.0 * rng.unit() - 2.0,
        _ => 200.0 * rng.unit() - 50.0,
    }
}

fn scores(rng: &mut Rng, points: usize, threshold: f64) -> Vec<f64> {
    let t = if threshold.is_finite() { threshold } else { 0.5 };
    let kind = rng.below(7);
    let mut list: Vec<f64> = (0..points)
        .map(|_| match kind {
            0 | 1 => t + 0.1 + 0.5 * rng.unit(),
            2 => rng.pick(&[t, t - 0.25, t - 0.1]),
            3 => rng.pick(&[f64::NAN, t + 0.25]),
            4 => rng.pick(&[f64::INFINITY, f64::NEG_INFINITY, t, -0.0, 0.0, 1.0]),
            _ => rng.pick(&[t, t - 0.25, t + 0.25, t + 0.5, f64::NAN]),
        })
        .collect();
    // A NaN alone builds no mask; beside a low score it is masked.
    if kind == 5 && points > 1 {
        list[0] = f64::NAN;
        list[1] = t - 0.25;
        rng.shuffle(&mut list);
    }
    list
}

fn distances(rng: &mut Rng, threshold: f64, aims: &[Option<usize>], columns: usize, mood: Mood) -> Vec<f64> {
    let levels = Levels(threshold);
    let noise = rng.pick(&[Noise::Plain, Noise::Plain, Noise::Ragged, Noise::Ragged, Noise::Ties]);
    let mut made = Vec::with_capacity(aims.len() * columns);
    for aim in aims {
        for column in 0..columns {
            made.push(match aim {
                _ if mood == Mood::Chaos => levels.pooled(rng),
                Some(target) if *target == column => levels.aimed(rng, noise),
                _ => levels.beside(rng, noise),
            });
        }
    }
    made
}

/// What the frame lends before its ReID matrix.
pub fn lend(plan: &mut Plan, kept: &[Kept]) -> Lent {
    let mut own = plan.rng.fork();
    let rng = &mut own;
    let s = &plan.settings;
    let mood = mood(rng, plan, kept);
    let aims = targets(rng, mood, kept, plan);
    let wild = plan.temper == Temper::Overflow && rng.chance(40) || rng.chance(2);
    let mut coordinates = Vec::new();
    let mut all_scores = Vec::new();
    let mut has_scores = Vec::new();
    for aim in &aims {
        let near = aim.map(|column| &kept[column].ahead);
        for i in 0..s.points * s.dims {
            coordinates.push(coordinate(rng, wild, near.map(|list| list[i])));
        }
        all_scores.extend(scores(rng, s.points, s.score_threshold));
        has_scores.push(rng.chance(70));
    }
    let distances = Rc::new(distances(rng, s.threshold, &aims, kept.len(), mood));
    let period = period(rng, plan.periods);
    let lent = Lent { period, records: kept.len(), coordinates, scores: all_scores, has_scores, distances };
    room::fit(lent, s, kept)
}

/// Who a candidate's row favours.
#[derive(Clone, Copy, PartialEq)]
enum Favour {
    Itself,
    Other,
    Eldest,
    Anyone,
    Pool,
    Nobody,
}

/// Makes the frame's ReID matrix when the Rust asks for it, from a generator of its own.
pub fn reid_maker(plan: &mut Plan, kept: &[Kept]) -> ReidMaker {
    let mut rng = plan.rng.fork();
    let shunned = shunned(plan, kept);
    let levels = Levels(plan.settings.reid_threshold);
    use Favour::*;
    let favour = match plan.temper {
        _ if plan.shun && rng.chance(75) => Eldest,
        Temper::Revive => rng.pick(&[Itself, Itself, Other, Other, Other, Other, Other, Anyone, Pool, Nobody]),
        _ => rng.pick(&[Itself, Itself, Other, Other, Eldest, Eldest, Anyone, Anyone, Pool, Nobody]),
    };
    let noise = rng.pick(&[Noise::Plain, Noise::Plain, Noise::Ragged, Noise::Ties]);
    Box::new(move |old, candidates| {
        let first = candidates.iter().position(|c| old.contains(c));
        let mut made = Vec::with_capacity(old.len() * candidates.len());
        for (row, candidate) in candidates.iter().enumerate() {
            let wanted = match favour {
                Eldest => shunned.filter(|id| old.contains(id)).or(old.iter().min().copied()),
                Anyone => Some(rng.pick(old)),
                Itself => Some(*candidate).filter(|c| old.contains(c)).or(Some(rng.pick(old))),
                Other => other(old, candidates, row, first),
                Pool | Nobody => None,
            };
            for o in old {
                made.push(match favour {
                    Pool => levels.pooled(&mut rng),
                    _ if wanted == Some(*o) => levels.aimed(&mut rng, noise),
                    _ => levels.beside(&mut rng, noise),
                });
            }
        }
        made
    })
}

/// Pairs those that are candidate and old one at once with each other; the rest take the old ones round.
fn other(old: &[i32], candidates: &[i32], row: usize, first: Option<usize>) -> Option<i32> {
    let both: Vec<i32> = candidates.iter().copied().filter(|c| old.contains(c)).collect();
    match both.iter().position(|c| *c == candidates[row]) {
        Some(place) if both.len() > 1 => {
            let beside = place ^ 1;
            both.get(beside).copied().or(first.map(|f| candidates[f]))
        }
        _ => Some(old[row % old.len()]),
    }
}
