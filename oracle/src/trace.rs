//! Runs a whole trace and writes it.

use crate::counting::{self, Before};
use crate::driver;
use crate::events::{Event, Events};
use crate::plan::{Plan, Size};
use crate::steer;
use crate::tracked_object::reset_global_counter;
use crate::words::Words;
use crate::writing;

/// One trace in the output format, and its events.
pub fn run(seed: u64, size: Size) -> (Vec<u8>, Events) {
    let mut plan = Plan::new(seed, size);
    let mut out = Words::default();
    let mut events = Events::default();
    reset_global_counter();
    events.add(Event::Traces, 1);
    let mut tracker = match plan.settings.make() {
        Ok(tracker) => tracker,
        Err(refusal) => {
            events.add(if refusal == 1 { Event::Refused1 } else { Event::Refused2 }, 1);
            writing::settings(&mut out, &plan.settings, refusal, 0);
            return (out.text, events);
        }
    };
    writing::settings(&mut out, &plan.settings, 0, plan.frames);
    for _ in 0..plan.frames {
        let kept = driver::kept(&tracker);
        let lent = steer::lend(&mut plan, &kept);
        let maker = steer::reid_maker(&mut plan, &kept);
        let before = Before::new(&tracker);
        let answer = driver::step(&mut tracker, &plan.settings, &lent, maker, true);
        driver::check(&tracker, &plan.settings, &answer);
        counting::count(&mut events, &plan.settings, &before, &tracker, &lent, &answer);
        writing::lent(&mut out, &lent);
        writing::pairs(&mut out, &answer);
        writing::reid(&mut out, &answer);
        writing::table(&mut out, &tracker, &answer);
    }
    (out.text, events)
}
