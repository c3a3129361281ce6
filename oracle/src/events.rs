//! The events of a run: their names and counts.

macro_rules! events {
    ($($variant:ident $name:literal)*) => {
        #[derive(Clone, Copy)]
        pub enum Event { $($variant),* }
        pub const NAMES: &[&str] = &[$($name),*];
    };
}

events! {
    Traces "traces"
    Frames "frames"
    Refused1 "refused makings 1"
    Refused2 "refused makings 2"
    Pass1 "hits pass 1"
    Pass2 "hits pass 2"
    Openings "openings"
    Silent "frames with no detection"
    DropsPlain "drops without ReID maximum"
    DropsReid "drops by the ReID counter"
    PromotedHit "promotions at a hit"
    PromotedOpening "promotions at opening"
    Merges "merges"
    SelfMerges "self-merges"
    Mutual "mutual merges"
    Chained "merges of a candidate that had taken another"
    ChainedHistory "merges that pass on history just taken"
    IntoDead "merges into dead"
    IntoAlive "merges into unmatched alive"
    AbsorbedWithId "candidates absorbed that had a permanent ID"
    Added "history entries added with an age"
    Replaced "full histories replaced by age"
    TooYoung "full histories kept (too young)"
    NoAge "full histories kept (oldest without an age)"
    NanEntries "NaN entries lent"
    InfiniteEntries "infinite entries lent"
    Ties "ties of equal smallest"
    ZeroTies "ties of 0 and -0"
    NanScores "NaN scores"
    Masked "masked hits"
    NoScores "detections without scores"
    NotFinite "states that became infinite or NaN"
    Crowded "tables with 32 or more records"
    LongPeriod "frames with period above 1"
}

#[derive(Clone)]
pub struct Events {
    pub counts: Vec<u64>,
}

impl Default for Events {
    fn default() -> Self {
        Self { counts: vec![0; NAMES.len()] }
    }
}

impl Events {
    pub fn add(&mut self, event: Event, many: usize) {
        self.counts[event as usize] += many as u64;
    }

    pub fn join(&mut self, other: &Events) {
        self.counts.iter_mut().zip(&other.counts).for_each(|(a, b)| *a += b);
    }

    pub fn count(&self, event: Event) -> u64 {
        self.counts[event as usize]
    }

    /// One line an event, to the error stream.
    pub fn print(&self) {
        for (name, count) in NAMES.iter().zip(&self.counts) {
            eprintln!("{name}: {count}");
        }
    }
}
