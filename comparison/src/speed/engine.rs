//! The published engine alone, on values: no words, no checks, no transaction.

use std::time::Duration;

use dali2rust_rules_runtime::runtime::engine::{
    ActivationOutcome, Engine, EngineCountersSnapshot, EngineInput, WorldSnapshot,
};
use oracle::access::NextStart;
use oracle::decode;
use oracle::house::Call;
use oracle::model::{limits, RuleSet};
use oracle::readback::Start;

use super::clock::Clock;

pub struct Bare {
    engine: Engine,
}

impl Default for Bare {
    fn default() -> Bare {
        Bare { engine: Engine::new(0) }
    }
}

/// What a call is given, decoded.
enum Given {
    New(u64),
    /// The set is handed over.
    Load(u64, Option<RuleSet>),
    Unload(u64),
    Enable(String, bool),
    Tick(WorldSnapshot),
    Run(String, bool, WorldSnapshot),
    Deadline,
    Counters,
    NextStart(WorldSnapshot),
    Readback(String, WorldSnapshot),
}

/// What a call gives, so that it is not dropped while the time runs.
#[allow(dead_code)]
enum Gave {
    Nothing,
    Enabled(bool),
    Outcomes(Vec<ActivationOutcome>),
    Deadline(Option<u64>),
    Counters(EngineCountersSnapshot),
    NextStart(NextStart),
    Readback(Vec<Start>),
}

fn given(call: &Call) -> Given {
    match call {
        Call::New { time } => Given::New(*time),
        Call::Load { time, image } => {
            let (set, bounds) = decode::rule_set(image);
            limits::set(bounds);
            Given::Load(*time, Some(set))
        }
        Call::Unload { time } => Given::Unload(*time),
        Call::Enable { rule, on } => Given::Enable(decode::name(*rule), *on),
        Call::Tick { snapshot } => Given::Tick(decode::world(snapshot)),
        Call::Run { rule, dry, snapshot } => Given::Run(decode::name(*rule), *dry, decode::world(snapshot)),
        Call::Deadline => Given::Deadline,
        Call::Own { name: "readback", given } => Given::Readback(decode::name(given.word(0)), decode::world(&given.list)),
        Call::Own { given, .. } => Given::NextStart(decode::world(&given.list)),
        _ => Given::Counters,
    }
}

fn make(engine: &mut Engine, given: &mut Given) -> Gave {
    match given {
        Given::New(time) => *engine = Engine::new(*time),
        Given::Load(time, set) => engine.set_rules(set.take(), *time),
        Given::Unload(time) => engine.set_rules(None, *time),
        Given::Enable(name, on) => return Gave::Enabled(engine.set_rule_enabled(name, *on)),
        Given::Tick(world) => return Gave::Outcomes(engine.handle(EngineInput::Tick, world)),
        Given::Run(name, dry, world) => {
            return Gave::Outcomes(engine.handle(EngineInput::RunRule { name, dry: *dry }, world));
        }
        Given::Deadline => return Gave::Deadline(engine.next_deadline_ms()),
        Given::Counters => return Gave::Counters(engine.counters()),
        // Its due test, asked minute by minute.
        Given::NextStart(world) => return Gave::NextStart(engine.next_start(world)),
        Given::Readback(name, world) => return Gave::Readback(engine.solar_starts(name, world)),
    }
    Gave::Nothing
}

impl Bare {
    pub fn call(&mut self, call: &Call) {
        make(&mut self.engine, &mut given(call));
    }

    /// The least time of a call from the engine's state.
    pub fn time(&self, call: &Call, clock: &Clock, times: usize) -> Duration {
        clock.least(times, || (self.engine.clone(), given(call)), |(engine, given)| make(engine, given))
    }

    /// The calls one after the other, on a copy; the time of one of them, on the average.
    pub fn average(&self, calls: &[Call], clock: &Clock) -> Duration {
        let mut engine = self.engine.clone();
        let took: Duration = calls.iter().map(|call| once(&mut engine, call, clock)).sum();
        took / calls.len() as u32
    }
}

fn once(engine: &mut Engine, call: &Call, clock: &Clock) -> Duration {
    let mut given = given(call);
    clock.time(|| make(engine, &mut given))
}
