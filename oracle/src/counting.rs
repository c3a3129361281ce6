//! Works out a frame's events from the tables before and after it and from what was noted.

use crate::driver::{fail, picks, stays, Answer};
use crate::events::{Event, Events};
use crate::frame::Lent;
use crate::plan::Settings;
use crate::stand_ins::desk::ReidCall;
use crate::tracker::Tracker;
use crate::TrackedObject;
use std::collections::HashMap;

/// A record before the frame.
struct Was {
    stays: bool,
    initializing: bool,
    dead: bool,
    finite: bool,
}

/// The table before the frame.
pub struct Before {
    records: HashMap<i32, Was>,
    /// Global ID and initializing mark of the records kept by step 1.
    columns: Vec<(i32, bool)>,
    dead: Vec<bool>,
    total: i32,
}

fn finite(record: &TrackedObject) -> bool {
    record.filter.get_state_vector().iter().all(|x| x.is_finite())
}

impl Before {
    pub fn new(tracker: &Tracker) -> Self {
        let total = tracker.total_object_count();
        let mut made = Before { records: HashMap::new(), columns: vec![], dead: vec![], total };
        for o in &tracker.tracked_objects {
            let (stays, dead) = (stays(tracker, o), o.hit_counter < 0);
            let was = Was { stays, initializing: o.is_initializing, dead, finite: finite(o) };
            made.records.insert(o.global_id, was);
            if stays {
                made.columns.push((o.global_id, o.is_initializing));
                made.dead.push(dead);
            }
        }
        made
    }

    fn was_dead(&self, id: i32) -> bool {
        self.records.get(&id).is_some_and(|was| was.dead)
    }
}

/// Counts everything of one frame.
pub fn count(events: &mut Events, s: &Settings, before: &Before, tracker: &Tracker, lent: &Lent, answer: &Answer) {
    lent_things(events, s, lent, answer);
    table_things(events, s, before, tracker, lent, answer);
    pass_ties(events, before, lent, answer);
    if let Some(call) = &answer.reid {
        reid_things(events, s, before, tracker, call);
    }
}

fn lent_things(events: &mut Events, s: &Settings, lent: &Lent, answer: &Answer) {
    let reid: &[f64] = answer.reid.as_ref().map_or(&[], |call| &call.entries);
    let entries = || lent.distances.iter().chain(reid);
    events.add(Event::Frames, 1);
    events.add(Event::Silent, (lent.count() == 0) as usize);
    events.add(Event::LongPeriod, (lent.period > 1) as usize);
    events.add(Event::NanEntries, entries().filter(|x| x.is_nan()).count());
    events.add(Event::InfiniteEntries, entries().filter(|x| x.is_infinite()).count());
    events.add(Event::NoScores, lent.has_scores.iter().filter(|&&has| !has).count());
    let own = |d: usize| &lent.scores[d * s.points..(d + 1) * s.points];
    for d in (0..lent.count()).filter(|&d| lent.has_scores[d]) {
        events.add(Event::NanScores, own(d).iter().filter(|x| x.is_nan()).count());
    }
    for pair in answer.pairs.iter().filter(|pair| lent.has_scores[pair.detection]) {
        let masked = own(pair.detection).iter().any(|&score| score <= s.score_threshold);
        events.add(Event::Masked, masked as usize);
    }
}

fn table_things(events: &mut Events, s: &Settings, before: &Before, tracker: &Tracker, lent: &Lent, answer: &Answer) {
    let table = &tracker.tracked_objects;
    let dropped = before.records.iter().filter(|(_, was)| !was.stays);
    let dropped: Vec<i32> = dropped.map(|(&id, _)| id).collect();
    if table.iter().any(|o| dropped.contains(&o.global_id)) {
        fail("a record to be dropped is still in the table");
    }
    let kind = if s.reid_max.is_none() { Event::DropsPlain } else { Event::DropsReid };
    events.add(kind, dropped.len());
    let pass1 = answer.pairs.iter().filter(|pair| pair.pass == 1).count();
    events.add(Event::Pass1, pass1);
    events.add(Event::Pass2, answer.pairs.len() - pass1);
    let openings = lent.count() - answer.pairs.len();
    let opened = table.iter().filter(|o| !before.records.contains_key(&o.global_id));
    if opened.clone().count() != openings {
        fail("the openings are not the detections left over");
    }
    events.add(Event::Openings, openings);
    let at_opening = opened.filter(|o| o.id.is_some()).count();
    let issued = (tracker.total_object_count() - before.total) as usize;
    events.add(Event::PromotedOpening, at_opening);
    events.add(Event::PromotedHit, issued - at_opening);
    events.add(Event::Crowded, (table.len() >= 32) as usize);
    let was_finite = |o: &TrackedObject| before.records.get(&o.global_id).is_none_or(|was| was.finite);
    events.add(Event::NotFinite, table.iter().filter(|o| !finite(o) && was_finite(o)).count());
}

/// Ties in the two passes, from the picks as they happened.
fn pass_ties(events: &mut Events, before: &Before, lent: &Lent, answer: &Answer) {
    let columns = before.columns.len();
    let mut taken: Vec<usize> = Vec::new();
    for pass in [1, 2] {
        let rows: Vec<usize> = (0..lent.count()).filter(|d| !taken.contains(d)).collect();
        let own: Vec<usize> = (0..columns)
            .filter(|&c| if pass == 2 { before.columns[c].1 } else { !before.columns[c].1 && !before.dead[c] })
            .collect();
        let pairs = answer.pairs.iter().filter(|pair| pair.pass == pass);
        let picks: Vec<Pick> = pairs
            .map(|pair| {
                let column = before.columns.iter().position(|&(id, _)| id == pair.global_id);
                (pair.detection, column.expect("a hit record was kept"))
            })
            .collect();
        ties(events, &rows, &own, &picks, |i, j| lent.distances[i * columns + j]);
        taken.extend(picks.iter().map(|pick| pick.0));
    }
}

/// A row and a column.
type Pick = (usize, usize);

/// A tie: at a pick another free entry equals the one picked.
fn ties(events: &mut Events, rows: &[usize], columns: &[usize], picks: &[Pick], entry: impl Fn(usize, usize) -> f64) {
    let (mut rows, mut columns) = (rows.to_vec(), columns.to_vec());
    for &(row, column) in picks {
        let picked = entry(row, column);
        let (mut tie, mut zero) = (false, false);
        for &i in &rows {
            for &j in &columns {
                let other = entry(i, j);
                if other == picked && (i, j) != (row, column) {
                    tie = true;
                    zero |= other.to_bits() != picked.to_bits();
                }
            }
        }
        events.add(Event::Ties, tie as usize);
        events.add(Event::ZeroTies, zero as usize);
        rows.retain(|&i| i != row);
        columns.retain(|&j| j != column);
    }
}

fn reid_ties(events: &mut Events, call: &ReidCall, named: &[(i32, i32)]) {
    let (many, old) = (call.candidates.len(), call.old.len());
    let place = |list: &[i32], id: i32| list.iter().position(|&x| x == id).expect("a pick is of the call");
    let picks: Vec<Pick> = named.iter().map(|&(c, o)| (place(&call.candidates, c), place(&call.old, o))).collect();
    let (rows, columns): (Vec<usize>, Vec<usize>) = ((0..many).collect(), (0..old).collect());
    ties(events, &rows, &columns, &picks, |i, j| call.entries[i * old + j]);
}

/// Picks again by the unchanged matching and merges the clones, counting on the way.
fn reid_things(events: &mut Events, s: &Settings, before: &Before, tracker: &Tracker, call: &ReidCall) {
    let named = picks(call, s.reid_threshold);
    reid_ties(events, call, &named);
    let mut clones: HashMap<i32, TrackedObject> = call.records.iter().map(|o| (o.global_id, o.clone())).collect();
    for (place, &(candidate, old)) in named.iter().enumerate() {
        let new = clones[&candidate].clone();
        let chained = named[..place].iter().any(|pick| pick.1 == candidate);
        let aged = new.past_detections.iter().any(|d| d.age == Some(new.age));
        events.add(Event::Chained, chained as usize);
        events.add(Event::ChainedHistory, (chained && aged) as usize);
        events.add(Event::Merges, 1);
        events.add(Event::SelfMerges, (candidate == old) as usize);
        events.add(Event::Mutual, (candidate < old && named.contains(&(old, candidate))) as usize);
        let kind = if before.was_dead(old) { Event::IntoDead } else { Event::IntoAlive };
        events.add(kind, 1);
        events.add(Event::AbsorbedWithId, new.id.is_some() as usize);
        history_things(events, &clones[&old], &new, s.history);
        clones.get_mut(&old).expect("an old one was kept").merge(&new, s.history);
    }
    agree(tracker, &named, &clones);
}

/// The rule of the history, entry by entry, on a clone of the old record.
fn history_things(events: &mut Events, old: &TrackedObject, new: &TrackedObject, length: usize) {
    let mut old = old.clone();
    for entry in new.past_detections.iter().filter(|_| length > 0) {
        let event = match old.past_detections.front().map(|oldest| oldest.age) {
            _ if old.past_detections.len() < length => Event::Added,
            Some(Some(age)) if old.age >= age * length as i32 => Event::Replaced,
            Some(Some(_)) => Event::TooYoung,
            _ => Event::NoAge,
        };
        events.add(event, 1);
        old.conditionally_add_to_past_detections(entry.clone(), length);
    }
}

/// The merged clones must be what the table holds, and the absorbed must be gone.
fn agree(tracker: &Tracker, picks: &[(i32, i32)], clones: &HashMap<i32, TrackedObject>) {
    let find = |id: i32| tracker.tracked_objects.iter().find(|o| o.global_id == id);
    for &(candidate, old) in picks {
        if find(candidate).is_some() {
            fail("an absorbed candidate is still in the table");
        }
        let absorbed = picks.iter().any(|pick| pick.0 == old);
        let Some(record) = find(old).filter(|_| !absorbed) else { continue };
        let ages = |o: &TrackedObject| o.past_detections.iter().map(|d| d.age).collect::<Vec<_>>();
        let clone = &clones[&old];
        if record.hit_counter != clone.hit_counter || ages(record) != ages(clone) {
            fail("a merged record is not what the replay gives");
        }
    }
    let absorbed_all = picks.iter().all(|&(_, old)| find(old).is_some() || picks.iter().any(|pick| pick.0 == old));
    if !absorbed_all {
        fail("an old record that was not absorbed is gone");
    }
}
