//! The C functions. Each returns the number of its refusal, 0 for none, and writes its values into the lent answer as far as there is room; words
//! behind them, and all of them on a refusal, are 0.
//!
//! They are safe: a slice goes over as its pointer and its length, the proved functions touch no word outside and keep nothing, and they demand
//! nothing of the words.

mod c {
    extern "C" {
        pub fn cerambiu_new(store: *mut u32, store_words: usize, time: u64) -> u32;
        pub fn cerambiu_load(
            store: *mut u32,
            store_words: usize,
            time: u64,
            image: *const u32,
            image_words: usize,
        ) -> u32;
        pub fn cerambiu_unload(store: *mut u32, store_words: usize, time: u64) -> u32;
        pub fn cerambiu_enable(
            store: *mut u32,
            store_words: usize,
            rule: u32,
            on: bool,
            answer: *mut u32,
            answer_words: usize,
        ) -> u32;
        pub fn cerambiu_tick(
            store: *mut u32,
            store_words: usize,
            snapshot: *const u32,
            snapshot_words: usize,
            outcomes: *mut u32,
            outcome_words: usize,
            effects: *mut u32,
            effect_words: usize,
            answer: *mut u32,
            answer_words: usize,
        ) -> u32;
        pub fn cerambiu_run(
            store: *mut u32,
            store_words: usize,
            rule: u32,
            dry: bool,
            snapshot: *const u32,
            snapshot_words: usize,
            outcomes: *mut u32,
            outcome_words: usize,
            effects: *mut u32,
            effect_words: usize,
            answer: *mut u32,
            answer_words: usize,
        ) -> u32;
        pub fn cerambiu_next_deadline(
            store: *const u32,
            store_words: usize,
            answer: *mut u32,
            answer_words: usize,
        ) -> u32;
        pub fn cerambiu_counters(store: *const u32, store_words: usize, answer: *mut u32, answer_words: usize) -> u32;
        pub fn cerambiu_next_start(
            store: *const u32,
            store_words: usize,
            snapshot: *const u32,
            snapshot_words: usize,
            answer: *mut u32,
            answer_words: usize,
        ) -> u32;
        pub fn cerambiu_readback(
            store: *const u32,
            store_words: usize,
            rule: u32,
            snapshot: *const u32,
            snapshot_words: usize,
            readback: *mut u32,
            readback_words: usize,
            answer: *mut u32,
            answer_words: usize,
        ) -> u32;
        pub fn cerambiu_crontab(
            line: *const u8,
            line_bytes: usize,
            sunday: u32,
            triggers: *mut u32,
            trigger_words: usize,
            answer: *mut u32,
            answer_words: usize,
        ) -> u32;
        pub fn cerambiu_short_list(
            k: u32,
            actions: *const u32,
            action_words: usize,
            values: *const u32,
            value_words: usize,
            pool: *const u32,
            pool_words: usize,
            answer: *mut u32,
            answer_words: usize,
        ) -> u32;
        pub fn cerambiu_telegrams(
            effects: *const u32,
            effect_words: usize,
            list: *mut u32,
            list_words: usize,
            answer: *mut u32,
            answer_words: usize,
        ) -> u32;
        pub fn cerambiu_room(image: *const u32, image_words: usize, answer: *mut u32, answer_words: usize) -> u32;
        pub fn cerambiu_rewrite(
            image: *const u32,
            image_words: usize,
            lent: *mut u32,
            lent_words: usize,
            answer: *mut u32,
            answer_words: usize,
        ) -> u32;
    }
}

pub fn new(store: &mut [u32], time: u64) -> u32 {
    // SAFETY: the pointer and the length are those of a slice that is lent for the call.
    unsafe { c::cerambiu_new(store.as_mut_ptr(), store.len(), time) }
}

pub fn load(store: &mut [u32], time: u64, image: &[u32]) -> u32 {
    // SAFETY: as above.
    unsafe { c::cerambiu_load(store.as_mut_ptr(), store.len(), time, image.as_ptr(), image.len()) }
}

pub fn unload(store: &mut [u32], time: u64) -> u32 {
    // SAFETY: as above.
    unsafe { c::cerambiu_unload(store.as_mut_ptr(), store.len(), time) }
}

/// Value: 1 yes, 0 no.
pub fn enable(store: &mut [u32], rule: u32, on: bool, answer: &mut [u32]) -> u32 {
    // SAFETY: as above.
    unsafe { c::cerambiu_enable(store.as_mut_ptr(), store.len(), rule, on, answer.as_mut_ptr(), answer.len()) }
}

/// Values: the numbers of outcomes and effects.
pub fn tick(store: &mut [u32], snapshot: &[u32], outcomes: &mut [u32], effects: &mut [u32], answer: &mut [u32]) -> u32 {
    // SAFETY: as above.
    unsafe {
        c::cerambiu_tick(
            store.as_mut_ptr(),
            store.len(),
            snapshot.as_ptr(),
            snapshot.len(),
            outcomes.as_mut_ptr(),
            outcomes.len(),
            effects.as_mut_ptr(),
            effects.len(),
            answer.as_mut_ptr(),
            answer.len(),
        )
    }
}

/// Values: the numbers of outcomes and effects.
pub fn run(
    store: &mut [u32],
    rule: u32,
    dry: bool,
    snapshot: &[u32],
    outcomes: &mut [u32],
    effects: &mut [u32],
    answer: &mut [u32],
) -> u32 {
    // SAFETY: as above.
    unsafe {
        c::cerambiu_run(
            store.as_mut_ptr(),
            store.len(),
            rule,
            dry,
            snapshot.as_ptr(),
            snapshot.len(),
            outcomes.as_mut_ptr(),
            outcomes.len(),
            effects.as_mut_ptr(),
            effects.len(),
            answer.as_mut_ptr(),
            answer.len(),
        )
    }
}

/// Values: a mark, and the deadline's two words.
pub fn next_deadline(store: &[u32], answer: &mut [u32]) -> u32 {
    // SAFETY: as above.
    unsafe { c::cerambiu_next_deadline(store.as_ptr(), store.len(), answer.as_mut_ptr(), answer.len()) }
}

/// Values: the 12 counters, then pending, timers, rules, variables.
pub fn counters(store: &[u32], answer: &mut [u32]) -> u32 {
    // SAFETY: as above.
    unsafe { c::cerambiu_counters(store.as_ptr(), store.len(), answer.as_mut_ptr(), answer.len()) }
}

/// Values: a mark (0 none, 1 a start, 2 the clock is unknown), the minutes and the rule, 0 where there is no start.
pub fn next_start(store: &[u32], snapshot: &[u32], answer: &mut [u32]) -> u32 {
    // SAFETY: as above.
    unsafe {
        c::cerambiu_next_start(
            store.as_ptr(),
            store.len(),
            snapshot.as_ptr(),
            snapshot.len(),
            answer.as_mut_ptr(),
            answer.len(),
        )
    }
}

/// Value: the number of starts. Each is a mark, a minute and a signed word.
pub fn readback(store: &[u32], rule: u32, snapshot: &[u32], readback: &mut [u32], answer: &mut [u32]) -> u32 {
    // SAFETY: as above.
    unsafe {
        c::cerambiu_readback(
            store.as_ptr(),
            store.len(),
            rule,
            snapshot.as_ptr(),
            snapshot.len(),
            readback.as_mut_ptr(),
            readback.len(),
            answer.as_mut_ptr(),
            answer.len(),
        )
    }
}

pub fn telegrams(effects: &[u32], list: &mut [u32], answer: &mut [u32]) -> u32 {
    let (list_words, answer_words) = (list.len(), answer.len());
    // SAFETY: as above.
    unsafe {
        c::cerambiu_telegrams(
            effects.as_ptr(),
            effects.len(),
            list.as_mut_ptr(),
            list_words,
            answer.as_mut_ptr(),
            answer_words,
        )
    }
}

/// Value: the number of triggers.
pub fn crontab(line: &[u8], sunday: u32, triggers: &mut [u32], answer: &mut [u32]) -> u32 {
    // SAFETY: as above.
    unsafe {
        c::cerambiu_crontab(
            line.as_ptr(),
            line.len(),
            sunday,
            triggers.as_mut_ptr(),
            triggers.len(),
            answer.as_mut_ptr(),
            answer.len(),
        )
    }
}

/// Values: outcomes and effects, in records.
pub fn room(image: &[u32], answer: &mut [u32]) -> u32 {
    // SAFETY: as above.
    unsafe { c::cerambiu_room(image.as_ptr(), image.len(), answer.as_mut_ptr(), answer.len()) }
}

/// Values: the length of the list and its three places.
pub fn short_list(k: u32, actions: &[u32], values: &[u32], pool: &[u32], answer: &mut [u32]) -> u32 {
    // SAFETY: as above.
    unsafe {
        c::cerambiu_short_list(
            k,
            actions.as_ptr(),
            actions.len(),
            values.as_ptr(),
            values.len(),
            pool.as_ptr(),
            pool.len(),
            answer.as_mut_ptr(),
            answer.len(),
        )
    }
}

/// Value: the number of words written.
pub fn rewrite(image: &[u32], lent: &mut [u32], answer: &mut [u32]) -> u32 {
    // SAFETY: as above.
    unsafe {
        c::cerambiu_rewrite(
            image.as_ptr(),
            image.len(),
            lent.as_mut_ptr(),
            lent.len(),
            answer.as_mut_ptr(),
            answer.len(),
        )
    }
}
