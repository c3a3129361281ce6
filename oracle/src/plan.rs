//! The plan of a trace: its tracker's settings and how its frames are steered, from the seed alone.

use crate::filter::optimized::OptimizedKalmanFilterFactory;
use crate::rng::Rng;
use crate::stand_ins::distances::DistanceFunction;
use crate::stand_ins::filters::FilterFactoryEnum;
use crate::tracker::{Tracker, TrackerConfig};
use crate::Error;

/// How large traces may be: any, small ones for the sample, or small ones with a crowded table.
#[derive(Clone, Copy, PartialEq)]
pub enum Size {
    Any,
    Small,
    Wide,
}

/// What a trace is mostly about.
#[derive(Clone, Copy, PartialEq)]
pub enum Temper {
    Calm,
    Chaos,
    Reid,
    Revive,
    Overflow,
    Mixed,
}

#[derive(Clone)]
pub struct Settings {
    pub points: usize,
    pub dims: usize,
    pub capacity: usize,
    pub history: usize,
    pub hit_max: i32,
    pub delay: i32,
    pub point_max: i32,
    pub reid_max: Option<i32>,
    pub threshold: f64,
    pub score_threshold: f64,
    pub reid_threshold: f64,
    pub has_reid: bool,
    /// r, q, position variance, covariance, velocity variance.
    pub filter: [f64; 5],
}

impl Settings {
    /// Makes the tracker, or gives the refusal's number.
    pub fn make(&self) -> Result<Tracker, u64> {
        let [r, q, pos, cov, vel] = self.filter;
        let mut config = TrackerConfig::new(DistanceFunction, self.threshold);
        config.hit_counter_max = self.hit_max;
        config.initialization_delay = self.delay;
        config.pointwise_hit_counter_max = self.point_max;
        config.detection_threshold = self.score_threshold;
        config.filter_factory = FilterFactoryEnum(OptimizedKalmanFilterFactory::new(r, q, pos, cov, vel));
        config.past_detections_length = self.history;
        config.reid_distance_function = self.has_reid.then_some(DistanceFunction);
        config.reid_distance_threshold = self.reid_threshold;
        config.reid_hit_counter_max = self.reid_max;
        Tracker::new(config).map_err(|error| match error {
            Error::InvalidConfig(text) if text.contains("non-negative") => 1,
            Error::InvalidConfig(text) if text.contains("less than") => 2,
            other => panic!("an unknown refusal: {other:?}"),
        })
    }
}

pub struct Plan {
    pub settings: Settings,
    pub temper: Temper,
    pub frames: usize,
    /// 0: period 1; 1: small periods; 2: any.
    pub periods: usize,
    /// How many new detections a frame of births may bring.
    pub crowd: usize,
    /// One record is left unhit and favoured by ReID, so that its history is all aged.
    pub shun: bool,
    pub rng: Rng,
}

impl Plan {
    pub fn new(seed: u64, size: Size) -> Self {
        let mut rng = Rng::new(seed);
        use Temper::*;
        let temper = rng.pick(&[Calm, Chaos, Reid, Reid, Revive, Revive, Overflow, Mixed]);
        let steered = temper == Reid || temper == Revive;
        let (points, dims, capacity, history, crowd) = shape(&mut rng, size, steered);
        let (hit_max, delay) = counters(&mut rng, steered);
        let reid_max = reid_maximum(&mut rng, steered);
        let has_reid = rng.chance(if steered { 93 } else { 50 });
        let mut settings = Settings {
            points,
            dims,
            capacity,
            history,
            hit_max,
            delay,
            point_max: rng.pick(&[0, 1, 2, 4, 4, 4, 10, 10_000]),
            reid_max,
            threshold: threshold(&mut rng, steered),
            score_threshold: score_threshold(&mut rng),
            reid_threshold: threshold(&mut rng, steered),
            has_reid,
            filter: filter_settings(&mut rng, temper),
        };
        let frames = frames(&mut rng, size, crowd);
        let periods = rng.pick(&[0, 0, 0, 0, 0, 1, 1, 2]);
        let shun = temper == Reid && rng.chance(50);
        if shun {
            settings.history = rng.pick(&[1, 2, 2, 3, 4]);
            settings.reid_max = Some(rng.pick(&[3, 10, 50]));
            settings.has_reid = true;
        }
        Plan { settings, temper, frames, periods, crowd, shun, rng }
    }
}

/// Points, dimensions, capacity, history length, crowd.
fn shape(rng: &mut Rng, size: Size, steered: bool) -> (usize, usize, usize, usize, usize) {
    let history = rng.pick(&[0, 1, 1, 2, 2, 2, 3, 4, 4, 5, 6, 7, 8]);
    let least = if steered { 4 } else { 1 };
    let roomy = |rng: &mut Rng, most: usize| least + rng.below(most - least + 1);
    if size == Size::Wide {
        return (1, 1, rng.between(40, 64) as usize, rng.below(2), 32);
    }
    if size == Size::Small {
        let dims = rng.pick(&[1, 1, 2, 2, 3]);
        let points = 1 + rng.below(4 / dims);
        return (points, dims, roomy(rng, 7), history.min(4), 3);
    }
    let kind = rng.below(100);
    let dims = rng.pick(&[1, 2, 2, 3]);
    if kind < 3 {
        let points = rng.pick(&[1, 1, 2, 3, 16]);
        return (points, dims, rng.between(33, 64) as usize, history, 32);
    }
    if kind < 11 {
        return (rng.between(1, 16) as usize, dims, roomy(rng, 6), history, 3);
    }
    let most = rng.pick(&[6, 12, 12, 12, 32]);
    (1 + rng.below(8 / dims), dims, roomy(rng, most), history, 4)
}

/// The hit counter maximum and the delay; one in thirty traces has a pair that may be refused.
fn counters(rng: &mut Rng, steered: bool) -> (i32, i32) {
    if rng.below(30) == 0 {
        return rng.pick(&[
            (5, -2), (15, -5), (15, 15), (3, 7), (1, -1), (0, -1), (-1, -1), (-4, -1), (-2, -1), (-3, -1),
            (0, 0), (-1, 0), (1, 1), (10_000, 10_000), (15, -0xffff), (15, 0xffff), (-0xffff, -1), (-7, -9),
        ]);
    }
    let hit_max = match rng.below(20) {
        _ if steered => rng.pick(&[2, 3, 4, 5, 6, 8, 15]),
        0..=9 => rng.between(1, 6),
        10..=13 => 15,
        14..=16 => rng.between(7, 40),
        17 | 18 => rng.between(100, 10_000),
        _ => 10_000,
    };
    let delay = match rng.below(10) {
        0 | 1 => -1,
        2 | 3 if !steered => 0,
        4..=8 => rng.between(1, 5).min(hit_max - 1),
        _ => rng.between(0, hit_max - 1),
    };
    (hit_max, delay)
}

fn reid_maximum(rng: &mut Rng, steered: bool) -> Option<i32> {
    match rng.below(20) {
        0..=8 if !steered => None,
        0 => None,
        1 | 9 => Some(0),
        2..=5 | 10..=14 => Some(rng.between(1, 4)),
        6..=8 | 15..=17 => Some(rng.between(5, 50)),
        _ => Some(10_000),
    }
}

/// A matching threshold: mostly ordinary, since little happens below a NaN.
fn threshold(rng: &mut Rng, steered: bool) -> f64 {
    match rng.below(if steered { 150 } else { 100 }) {
        0..=2 => f64::NAN,
        3 => f64::NEG_INFINITY,
        4..=11 => f64::INFINITY,
        12..=17 => 0.0,
        18..=23 => rng.pick(&[-1.0, -0.5, -100.0]),
        24 => rng.pick(&[f64::MAX, f64::MIN_POSITIVE, -0.0, 5e-324]),
        _ => rng.pick(&[1.0, 1.0, 0.5, 2.0, 10.0, 50.0]),
    }
}

fn score_threshold(rng: &mut Rng) -> f64 {
    match rng.below(100) {
        0..=2 => f64::NAN,
        3..=5 => f64::INFINITY,
        6..=8 => f64::NEG_INFINITY,
        9..=12 => -1.0,
        13..=15 => -0.0,
        _ => rng.pick(&[0.0, 0.5, 0.5, 0.3]),
    }
}

fn filter_settings(rng: &mut Rng, temper: Temper) -> [f64; 5] {
    let mut made = [4.0, 0.1, 10.0, 0.0, 1.0];
    if !rng.chance(if temper == Temper::Overflow { 60 } else { 35 }) {
        return made;
    }
    for slot in made.iter_mut() {
        *slot = match rng.below(20) {
            0..=5 => *slot,
            6..=13 => rng.unit() * 20.0,
            14 | 15 => 0.0,
            16 => -rng.unit() * 5.0,
            17 => rng.pick(&[-0.0, 1e-3, 100.0, 1e308, 5e-324, 1e-300]),
            _ => rng.pick(&[1.0, 0.25, 2.0, f64::NAN, f64::INFINITY, f64::NEG_INFINITY]),
        };
    }
    made
}

fn frames(rng: &mut Rng, size: Size, crowd: usize) -> usize {
    let many = match size {
        Size::Small => rng.between(4, 12),
        Size::Wide => rng.between(2, 4),
        Size::Any if crowd > 8 => rng.between(4, 14),
        Size::Any => match rng.below(100) {
            0..=2 => 200,
            3..=9 => rng.between(1, 5),
            10..=19 => rng.between(40, 60),
            _ => rng.between(12, 36),
        },
    };
    many as usize
}
