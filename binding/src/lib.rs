//! The eight proved calls, the next start, the readback of solar starts, the list of telegrams, the reader of crontab lines, the room that an image needs, the numbers of short lists and images written anew over word slices: `include/cerambiu.h`, which says what the words mean, in safe Rust.
//!
//! The functions of this module give Rust values. Those of [`words`] are the C functions as they are, with the lent words of the answer.

pub mod words;

pub const STORE_WORDS: usize = 16_384;
pub const OUTCOME_WORDS: usize = 8;
pub const EFFECT_WORDS: usize = 5;
pub const TRIGGER_WORDS: usize = 8;
pub const IMAGE_MAX_WORDS: usize = 4_096;
pub const SOLAR_START_WORDS: usize = 3;
pub const COUNTERS: usize = 16;

/// Document 01's number of a refusal. A refused call has changed nothing.
#[derive(Clone, Copy, Debug, PartialEq, Eq)]
pub struct Refused(pub u32);

/// How many outcomes and effects a tick or a run has written.
#[derive(Clone, Copy, Debug, PartialEq, Eq)]
pub struct Handled {
    pub outcomes: u32,
    pub effects: u32,
}

/// What starts next by the wall clock.
#[derive(Clone, Copy, Debug, PartialEq, Eq)]
pub enum NextStart {
    None,
    ClockUnknown,
    /// In so many minutes, 1 to 10,080, this rule, the lowest name of those that start then.
    Start { minutes: u32, rule: u32 },
}

/// When an AtSolar trigger starts its rule.
#[derive(Clone, Copy, Debug, PartialEq, Eq)]
pub struct SolarStart {
    /// The minute of the day.
    pub minute: u32,
    /// What is left of the trigger's offset behind whole minutes, with its sign, in milliseconds. It starts nothing earlier or later.
    pub remainder_ms: i32,
}

fn accepted<T>(number: u32, value: T) -> Result<T, Refused> {
    match number {
        0 => Ok(value),
        _ => Err(Refused(number)),
    }
}

/// A new store, whatever its words were.
pub fn new(store: &mut [u32], time: u64) -> Result<(), Refused> {
    accepted(words::new(store, time), ())
}

pub fn load(store: &mut [u32], time: u64, image: &[u32]) -> Result<(), Refused> {
    accepted(words::load(store, time, image), ())
}

pub fn unload(store: &mut [u32], time: u64) -> Result<(), Refused> {
    accepted(words::unload(store, time), ())
}

/// Whether there is such a rule.
pub fn enable(store: &mut [u32], rule: u32, on: bool) -> Result<bool, Refused> {
    let mut answer = [0];
    let number = words::enable(store, rule, on, &mut answer);
    accepted(number, answer == [1])
}

pub fn tick(
    store: &mut [u32],
    snapshot: &[u32],
    outcomes: &mut [u32],
    effects: &mut [u32],
) -> Result<Handled, Refused> {
    let mut answer = [0; 2];
    let number = words::tick(store, snapshot, outcomes, effects, &mut answer);
    accepted(number, Handled { outcomes: answer[0], effects: answer[1] })
}

pub fn run(
    store: &mut [u32],
    rule: u32,
    dry: bool,
    snapshot: &[u32],
    outcomes: &mut [u32],
    effects: &mut [u32],
) -> Result<Handled, Refused> {
    let mut answer = [0; 2];
    let number = words::run(store, rule, dry, snapshot, outcomes, effects, &mut answer);
    accepted(number, Handled { outcomes: answer[0], effects: answer[1] })
}

pub fn next_deadline(store: &[u32]) -> Result<Option<u64>, Refused> {
    let mut answer = [0; 3];
    let number = words::next_deadline(store, &mut answer);
    let [mark, low, high] = answer.map(u64::from);
    accepted(number, (mark == 1).then_some(low | high << 32))
}

/// The 12 counters, then pending, timers, rules, variables.
pub fn counters(store: &[u32]) -> Result<[u32; COUNTERS], Refused> {
    let mut answer = [0; COUNTERS];
    let number = words::counters(store, &mut answer);
    accepted(number, answer)
}

/// What starts next by the wall clock, in the world of a snapshot. Nothing changes.
pub fn next_start(store: &[u32], snapshot: &[u32]) -> Result<NextStart, Refused> {
    let mut answer = [0; 3];
    let number = words::next_start(store, snapshot, &mut answer);
    let start = match answer {
        [0, ..] => NextStart::None,
        [1, minutes, rule] => NextStart::Start { minutes, rule },
        _ => NextStart::ClockUnknown,
    };
    accepted(number, start)
}

/// When the AtSolar triggers of a rule start it, in their order, in the world of a snapshot; None without a sun. A rule that is not loaded has none. The words
/// that are lent hold [`SOLAR_START_WORDS`] for each, and zeros behind. Nothing changes.
pub fn readback<'a>(
    store: &[u32],
    rule: u32,
    snapshot: &[u32],
    starts: &'a mut [u32],
) -> Result<impl Iterator<Item = Option<SolarStart>> + 'a, Refused> {
    let mut answer = [0];
    let number = words::readback(store, rule, snapshot, starts, &mut answer);
    let rows = starts.chunks_exact(SOLAR_START_WORDS).take(answer[0] as usize);
    accepted(number, rows.map(|row| (row[0] == 0).then_some(SolarStart { minute: row[1], remainder_ms: row[2] as i32 })))
}

/// The shortest list of these effects that leaves every lamp the same. How many effects it has; the words of `list` behind them are 0.
pub fn telegrams(effects: &[u32], list: &mut [u32]) -> Result<u64, Refused> {
    let mut answer = [0; 2];
    let number = words::telegrams(effects, list, &mut answer);
    let [low, high] = answer.map(u64::from);
    accepted(number, low | high << 32)
}

/// How many AtTime triggers a line of a crontab has; they stand in the lent words. `sunday` is the weekday that Sunday has here.
pub fn crontab(line: &[u8], sunday: u32, triggers: &mut [u32]) -> Result<u32, Refused> {
    let mut answer = [0];
    let number = words::crontab(line, sunday, triggers, &mut answer);
    accepted(number, answer[0])
}

/// How many outcomes and effects a tick or a run can give at the most while this image is loaded. Who lends [`OUTCOME_WORDS`] and [`EFFECT_WORDS`]
/// times as many words is never refused with 30.
pub fn room(image: &[u32]) -> Result<Handled, Refused> {
    let mut answer = [0; 2];
    let number = words::room(image, &mut answer);
    accepted(number, Handled { outcomes: answer[0], effects: answer[1] })
}

/// List k of all lists of up to three of the actions: its length, and the places of its records, 0 past the length.
pub fn short_list(k: u32, actions: &[u32], values: &[u32], pool: &[u32]) -> Result<(u32, [u32; 3]), Refused> {
    let mut answer = [0; 4];
    let number = words::short_list(k, actions, values, pool, &mut answer);
    let [length, places @ ..] = answer;
    accepted(number, (length, places))
}

/// The image written anew into the lent words, equal sets as equal words. How many words it has; the lent words behind them are 0.
pub fn rewrite(image: &[u32], lent: &mut [u32]) -> Result<u32, Refused> {
    let mut answer = [0];
    let number = words::rewrite(image, lent, &mut answer);
    accepted(number, answer[0])
}

#[cfg(test)]
mod tests {
    use super::*;

    /// Rule 5: Log 7, Wait 1000, Log 9; budget 8.
    const IMAGE: [u32; 53] = [
        5, 1, 0, 0, 0, 0, 0, 0, 0, 3, 0, 0, 0, 0, 0, 0, 21, 7, 0, 0, 0, 0, 0, 0, 23, 1000, 0, 0, 0, 0, 0, 0, 21, 9, 0,
        0, 0, 0, 0, 0, 8, 0, 1, 0, 0, 0, 16, 16, 16, 16, 40, 40, 40,
    ];

    fn snapshot(now: u32) -> [u32; 14] {
        [now, 0, 0, 0, 0, 0, 0, 0, 1, 0, 0, 0, 0, 0]
    }

    #[test]
    fn the_example_of_document_01() {
        let (mut store, mut outcomes, mut effects) = ([u32::MAX; STORE_WORDS], [1; 16], [1; 10]);
        assert_eq!(new(&mut store, 0), Ok(()));
        assert_eq!(load(&mut store, 0, &IMAGE), Ok(()));
        let ran = run(&mut store, 5, false, &snapshot(0), &mut outcomes, &mut effects);
        assert_eq!(ran, Ok(Handled { outcomes: 1, effects: 1 }));
        assert_eq!(outcomes, [5, 0, 0, 0, 0, 1, 1, 0, 0, 0, 0, 0, 0, 0, 0, 0]);
        assert_eq!(effects, [11, 7, 0, 0, 0, 0, 0, 0, 0, 0]);
        assert_eq!(next_deadline(&store), Ok(Some(1000)));
        let early = tick(&mut store, &snapshot(999), &mut outcomes, &mut effects);
        assert_eq!(early, Ok(Handled { outcomes: 0, effects: 0 }));
        let due = tick(&mut store, &snapshot(1000), &mut outcomes, &mut effects);
        assert_eq!(due, Ok(Handled { outcomes: 1, effects: 1 }));
        assert_eq!(effects[..5], [11, 9, 0, 0, 0]);
        assert_eq!(enable(&mut store, 5, false), Ok(true));
        assert_eq!(enable(&mut store, 6, false), Ok(false));
        assert_eq!(next_deadline(&store), Ok(None));
        assert_eq!(unload(&mut store, 2000), Ok(()));
        assert_eq!(counters(&store).map(|counts| (counts[0], counts[6], counts[14])), Ok((1, 2, 0)));
    }

    #[test]
    fn refusals() {
        let mut store = [0; STORE_WORDS];
        assert_eq!(new(&mut store[1..], 0), Err(Refused(1)));
        assert_eq!(new(&mut store, 7), Ok(()));
        assert_eq!(load(&mut store, 7, &IMAGE[..12]), Err(Refused(10)));
        assert_eq!(tick(&mut store, &[], &mut [], &mut []), Err(Refused(20)));
        store[2] = 2;
        assert_eq!(counters(&store), Err(Refused(2)));
    }

    #[test]
    fn what_starts_next() {
        // Rule 5 at 06:00 on day 0.
        let image = [
            5, 1, 0, 0, 0, 1, 0, 0, 0, 0, 0, 0, 0, 0, 0, 0, 2, 6, 0, 1, 0, 0, 0, 0, 8, 0, 1, 0, 0, 0, 16, 16, 24, 24, 24, 24, 24,
        ];
        let clock = |minute| [0, 0, 1, 0, minute, 0, 0, 0, 1, 0, 0, 0, 0, 0];
        let mut store = [0; STORE_WORDS];
        assert_eq!(new(&mut store, 0), Ok(()));
        assert_eq!(next_start(&store, &clock(359)), Ok(NextStart::None));
        assert_eq!(load(&mut store, 0, &image), Ok(()));
        let before = store;
        assert_eq!(next_start(&store, &clock(359)), Ok(NextStart::Start { minutes: 1, rule: 5 }));
        assert_eq!(next_start(&store, &clock(360)), Ok(NextStart::Start { minutes: 10_080, rule: 5 }));
        assert_eq!(next_start(&store, &snapshot(0)), Ok(NextStart::ClockUnknown));
        assert_eq!(next_start(&store, &clock(1_440)), Err(Refused(21)));
        assert_eq!(next_start(&store[1..], &[]), Err(Refused(1)));
        assert_eq!(store, before);
        assert_eq!(enable(&mut store, 5, false), Ok(true));
        assert_eq!(next_start(&store, &clock(359)), Ok(NextStart::None));
    }

    #[test]
    fn the_solar_starts_of_a_rule() {
        // Rule 5, disabled: every second, and 90 seconds before sunrise.
        let image = [
            5, 0, 0, 0, 0, 2, 0, 0, 0, 0, 0, 0, 0, 0, 0, 0, 1, 1_000, 0, 0, 0, 0, 0, 0, 3, 0, 4_294_877_296, 0, 0, 0, 0, 0, 8, 0, 1, 0, 0, 0, 16, 16, 32, 32,
            32, 32, 32,
        ];
        let sunny = [0, 0, 0, 0, 0, 1, 10, 1_000, 1, 0, 0, 0, 0, 0];
        let mut store = [0; STORE_WORDS];
        assert_eq!(new(&mut store, 0), Ok(()));
        let all = |store: &[u32], rule, snapshot: &[u32], words: &mut [u32]| {
            readback(store, rule, snapshot, words).map(|starts| starts.collect::<Vec<_>>())
        };
        assert_eq!(all(&store, 5, &sunny, &mut []), Ok(vec![]));
        assert_eq!(load(&mut store, 0, &image), Ok(()));
        let (before, mut words) = (store, [7; 8]);
        assert_eq!(all(&store, 5, &sunny, &mut words), Ok(vec![Some(SolarStart { minute: 9, remainder_ms: -30_000 })]));
        assert_eq!(words, [0, 9, 4_294_937_296, 0, 0, 0, 0, 0]);
        assert_eq!(all(&store, 5, &snapshot(0), &mut words), Ok(vec![None]));
        assert_eq!(words, [1, 0, 0, 0, 0, 0, 0, 0]);
        assert_eq!(all(&store, 5, &sunny, &mut words[6..]), Err(Refused(30)));
        assert_eq!(all(&store, 6, &sunny, &mut words[..2]), Ok(vec![]));
        assert_eq!(words, [0; 8]);
        assert_eq!(all(&store, 6, &[], &mut words), Err(Refused(20)));
        assert_eq!(all(&store[1..], 6, &[], &mut words), Err(Refused(1)));
        assert_eq!(store, before);
    }

    #[test]
    fn of_two_levels_round_a_log_the_last_is_sent() {
        let effects = [12, 1, 10, 0, 0, 11, 7, 0, 0, 0, 12, 1, 20, 0, 0];
        let mut list = [9; 12];
        assert_eq!(telegrams(&effects, &mut list), Ok(2));
        assert_eq!(list, [11, 7, 0, 0, 0, 12, 1, 20, 0, 0, 0, 0]);
        assert_eq!(telegrams(&effects, &mut list[..9]), Err(Refused(61)));
        assert_eq!(list, [0; 12]);
        assert_eq!(telegrams(&effects[1..], &mut list), Err(Refused(60)));
        assert_eq!(telegrams(&[], &mut []), Ok(0));
    }

    #[test]
    fn the_room_that_an_image_needs() {
        // No trigger: 32 continuations, each of which stands in a list of 3 steps.
        let room = Handled { outcomes: 32, effects: 96 };
        assert_eq!(super::room(&IMAGE), Ok(room));
        assert_eq!(super::room(&IMAGE[..12]), Err(Refused(10)));
        let (mut store, mut answer) = ([0; STORE_WORDS], [7; 3]);
        assert_eq!(words::room(&IMAGE, &mut answer), 0);
        assert_eq!(answer, [32, 96, 0]);
        assert_eq!(words::room(&[], &mut answer), 10);
        assert_eq!(answer, [0; 3]);
        let mut outcomes = vec![0; room.outcomes as usize * OUTCOME_WORDS];
        let mut effects = vec![0; room.effects as usize * EFFECT_WORDS];
        assert_eq!(new(&mut store, 0), Ok(()));
        assert_eq!(load(&mut store, 0, &IMAGE), Ok(()));
        for _ in 0..40 {
            let ran = run(&mut store, 5, false, &snapshot(0), &mut outcomes, &mut effects);
            assert_eq!(ran, Ok(Handled { outcomes: 1, effects: 1 }));
        }
        let due = tick(&mut store, &snapshot(1000), &mut outcomes, &mut effects);
        assert_eq!(due, Ok(Handled { outcomes: 32, effects: 32 }));
        assert_eq!(tick(&mut store, &snapshot(0), &mut outcomes[..1], &mut []), Ok(Handled { outcomes: 0, effects: 0 }));
    }

    #[test]
    fn a_line_of_a_crontab() {
        let mut triggers = [1; 20];
        assert_eq!(crontab(b"30,0 5 * * 1-5 lights up", 6, &mut triggers), Ok(2));
        assert_eq!(triggers, [2, 5, 0, 31, 0, 0, 0, 0, 2, 5, 30, 31, 0, 0, 0, 0, 0, 0, 0, 0]);
        assert_eq!(crontab(b"* 5 * * 1-5", 6, &mut triggers), Err(Refused(52)));
        assert_eq!(triggers, [0; 20]);
        assert_eq!(crontab(b"0 5 1 * 1-5", 6, &mut triggers), Err(Refused(51)));
        assert_eq!(crontab(b"0 5 1 * 7", 6, &mut triggers), Err(Refused(50)));
        assert_eq!(crontab(b"0 5 * * *", 7, &mut []), Err(Refused(50)));
    }

    #[test]
    fn a_short_list() {
        let eight = [21, 7, 0, 0, 0, 0, 0, 0].repeat(8);
        assert_eq!(short_list(17, &eight, &[], &[]), Ok((2, [1, 0, 0])));
        assert_eq!(short_list(584, &eight, &[], &[]), Ok((3, [7, 7, 7])));
        assert_eq!(short_list(585, &eight, &[], &[]), Err(Refused(72)));
        assert_eq!(short_list(0, &eight, &[], &[256]), Err(Refused(71)));
        assert_eq!(short_list(0, &eight[1..], &[], &[256]), Err(Refused(70)));
    }

    #[test]
    fn one_image_for_one_rule_set() {
        // Two Logs that nothing mentions stand in front of the rule's actions.
        let mut other = IMAGE[..16].to_vec();
        other.extend([21, 1, 0, 0, 0, 0, 0, 0, 21, 2, 0, 0, 0, 0, 0, 0]);
        other.extend(&IMAGE[16..]);
        other[8] = 2;
        other[66..].fill(56);
        let mut written = [9; 60];
        assert_eq!(rewrite(&other, &mut written), Ok(53));
        assert_eq!(written[..53], IMAGE);
        assert_eq!(written[53..], [0; 7]);
        assert_eq!(rewrite(&IMAGE, &mut written[..53]), Ok(53));
        assert_eq!(written[..53], IMAGE);
        assert_eq!(rewrite(&other, &mut written[..52]), Err(Refused(41)));
        assert_eq!(written[..52], [0; 52]);
        assert_eq!(rewrite(&IMAGE[1..], &mut []), Err(Refused(12)));
        assert_eq!(rewrite(&[], &mut []), Err(Refused(10)));
    }

    #[test]
    fn a_set_of_too_many_records_is_refused_at_once() {
        // A block that nobody calls: 400 Conditionals, each with the next record as then and as else.
        let mut image = vec![3, 0, 1, 0, 0, 0, 0, 0, 14, 0, 0, 0, 0, 0, 0, 0];
        (1..=400).for_each(|next| image.extend([27, 0, next, 1, next, 1, 0, 0]));
        image.extend([21, 7, 0, 0, 0, 0, 0, 0]);
        let end = image.len() as u32;
        image.extend([8, 8, 255, 255, 255, 0, 0, 8, 8, 16, end, end, end]);
        let mut written = [9; IMAGE_MAX_WORDS];
        assert_eq!(rewrite(&image, &mut written), Err(Refused(40)));
        assert_eq!(written, [0; IMAGE_MAX_WORDS]);
        assert_eq!(rewrite(&image, &mut []), Err(Refused(40)));
    }
}
