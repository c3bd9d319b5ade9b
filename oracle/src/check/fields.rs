//! Refusals 13 and 14: what each word of a record may hold, as tables of
//! field classes, one list for each kind.

use super::image::{
    Tables, ACTIONS, BLOCKS, BOUNDS, CONDITIONS, POOL, RULES, TRIGGERS, VALUES,
};

/// What one word of a record may hold.
#[derive(Clone, Copy)]
enum Field {
    /// Any word.
    Free,
    /// 0 to this number.
    UpTo(u32),
    /// 0 to `max` while word `at` of the record is `is`; void, so 0, otherwise.
    While { at: usize, is: u32, max: u32 },
    /// A word of the address that the reading code in word 1 asks for.
    Reference(usize),
    /// An index into a table.
    Index(usize),
    /// An index into a table while word `at` is `is`; free otherwise.
    IndexWhile { at: usize, is: u32, table: usize },
    /// The first record of a list in a table; the next word is its count.
    First(usize),
    /// The same for a list nested in an action.
    Nested,
}

use Field::{First, Free, Index, IndexWhile, Nested, Reference, UpTo, While};

const BIT: Field = UpTo(1);
const BYTE: Field = UpTo(255);
const ID: Field = UpTo(65_535);
const CMP: Field = UpTo(5);
const DAYS: Field = UpTo(127);
const HOUR: Field = UpTo(23);
const MINUTE: Field = UpTo(59);
const ANY: u32 = u32::MAX;

const RULE: &[Field] = &[
    Free, BIT, BIT, Free, First(TRIGGERS), Free, First(CONDITIONS), Free, First(ACTIONS), Free,
];
const BLOCK: &[Field] = &[Free, First(ACTIONS), Free];
const POOL_WORD: &[Field] = &[BYTE];

const TRIGGER_KINDS: [&[Field]; 5] = [
    &[Free],               // 0 TimerFires: timer
    &[Free],               // 1 Every: period_ms
    &[HOUR, MINUTE, DAYS], // 2 AtTime
    &[BIT, Free],          // 3 AtSolar: event, offset_ms
    &[],                   // 4 any other
];

const CONDITION_KINDS: [&[Field]; 16] = [
    &[Index(BOUNDS), Index(BOUNDS)],       // 0 TimeInRange
    &[DAYS],                               // 1 DayIn
    &[BIT],                                // 2 SunIs
    &[BYTE, ID, BIT],                      // 3 LampIs
    &[BYTE, ID, CMP, Index(VALUES)],       // 4 LampLevel
    &[BYTE, ID, CMP, Index(VALUES)],       // 5 LampCct
    &[BYTE, ID, BIT],                      // 6 GroupState
    &[BYTE, BYTE, BYTE, BIT],              // 7 InputOccupancy
    &[BYTE, BYTE, BYTE, BIT, Index(VALUES)], // 8 InputLight
    &[Free, BIT],                          // 9 HclState
    &[BYTE, BYTE],                         // 10 DeviceOnline
    &[Free],                               // 11 RuleEnabled
    &[Free, Free],                         // 12 LastFiredOlderThan
    &[Free],                               // 13 TimerRunning
    &[],                                   // 14 ControllerActive
    &[Free, CMP, BIT, IndexWhile { at: 3, is: 0, table: VALUES }], // 15 VarCompare
];

const ACTION_KINDS: [&[Field]; 29] = [
    &[Free, UpTo(2), UpTo(2), While { at: 3, is: 0, max: ANY }], // 0 Light
    &[BIT, While { at: 1, is: 0, max: 255 }, BIT, While { at: 3, is: 1, max: ANY }], // 1 Recall
    &[BIT, While { at: 1, is: 0, max: 255 }],    // 2 Apply
    &[First(POOL), UpTo(16)],                    // 3 Cycle
    &[Free],                                     // 4 HclResume
    &[Free],                                     // 5 HclHold
    &[Free],                                     // 6 HclEnable
    &[Free],                                     // 7 HclDisable
    &[BYTE, BYTE, BYTE],                         // 8 FeedbackOn
    &[BYTE, BYTE, BYTE],                         // 9 FeedbackOff
    &[BYTE, BYTE, Index(VALUES)],                // 10 PanelSelect
    &[BYTE, BYTE, BYTE],                         // 11 CancelHold
    &[BYTE, BYTE, BYTE],                         // 12 CatchMovement
    &[Free, Free],                               // 13 TimerStart
    &[Free, Free],                               // 14 TimerRestart
    &[Free],                                     // 15 TimerCancel
    &[Free, BIT, Free, Free],                    // 16 VarSet
    &[Free, Index(VALUES)],                      // 17 VarAdd
    &[Free],                                     // 18 RuleEnable
    &[Free],                                     // 19 RuleDisable
    &[Free, Free, BIT],                          // 20 MqttPublish
    &[Free],                                     // 21 Log
    &[Free],                                     // 22 StatCount
    &[Free],                                     // 23 Wait
    &[Free, Nested, Free],                       // 24 After
    &[Free],                                     // 25 Call
    &[BYTE, Nested, Free],                       // 26 Repeat
    &[Index(CONDITIONS), Nested, Free, Nested, Free], // 27 Conditional
    &[Free, UpTo(2), Index(VALUES)],             // 28 Percent
];

const VALUE_KINDS: [&[Field]; 3] = [
    &[Free, Free],                                                   // 0 literal
    &[UpTo(22), Reference(0), Reference(1), Reference(2)],           // 1 reading
    &[UpTo(22), Reference(0), Reference(1), Reference(2), Free],     // 2 offset
];

const BOUND_KINDS: [&[Field]; 2] = [
    &[HOUR, MINUTE], // 0 clock
    &[BIT, Free],    // 1 solar: event, offset_ms
];

/// The reference words of readings 0 to 22.
const LAMP_OR_GROUP: &[Field] = &[BYTE, ID];
const INPUT: &[Field] = &[BYTE, BYTE, BYTE];
const READINGS: [&[Field]; 23] = [
    LAMP_OR_GROUP, LAMP_OR_GROUP, LAMP_OR_GROUP, LAMP_OR_GROUP, // 0 to 3: lamps
    LAMP_OR_GROUP, LAMP_OR_GROUP, LAMP_OR_GROUP,                // 4 to 6: groups
    INPUT, INPUT, INPUT, INPUT,                                 // 7 to 10: inputs
    &[], &[], &[], &[],                                         // 11 to 14: time
    &[], &[], &[],                                              // 15 to 17: sun
    &[Free],                                                    // 18: variable
    &[], &[], &[], &[],                                         // 19 to 22: event
];

/// The words of a record that its fields stand in, with the fields; None for an
/// unknown kind. Rules, blocks and pool words have no kind.
fn shape<'a>(table: usize, record: &'a [u32]) -> Option<(usize, &'static [Field])> {
    let kinds: &[&'static [Field]] = match table {
        RULES => return Some((0, RULE)),
        BLOCKS => return Some((0, BLOCK)),
        POOL => return Some((0, POOL_WORD)),
        TRIGGERS => &TRIGGER_KINDS,
        CONDITIONS => &CONDITION_KINDS,
        ACTIONS => &ACTION_KINDS,
        VALUES => &VALUE_KINDS,
        _ => &BOUND_KINDS,
    };
    let kind = *record.first()? as usize;
    kinds.get(kind).map(|fields| (1, *fields))
}

/// Whether a record has nothing that refusal 13 names.
pub(super) fn in_range(tables: &Tables<'_>, table: usize, index: usize) -> bool {
    let record = tables.record(table, index);
    let Some((offset, fields)) = shape(table, record) else {
        return false;
    };
    let used = offset + fields.len();
    let fit = fields
        .iter()
        .zip(&record[offset..])
        .all(|(field, word)| word_in_range(*field, *word, record));
    fit && record[used..].iter().all(|word| *word == 0)
}

fn word_in_range(field: Field, word: u32, record: &[u32]) -> bool {
    match field {
        UpTo(max) => word <= max,
        While { at, is, max } => {
            if record[at] == is {
                word <= max
            } else {
                word == 0
            }
        }
        Reference(part) => match READINGS.get(record[1] as usize).map(|shape| shape.get(part)) {
            Some(Some(field)) => word_in_range(*field, word, record),
            _ => word == 0,
        },
        Free | Index(_) | IndexWhile { .. } | First(_) | Nested => true,
    }
}

/// Whether a record has nothing that refusal 14 names.
pub(super) fn refers_inside(tables: &Tables<'_>, table: usize, index: usize) -> bool {
    let record = tables.record(table, index);
    let Some((offset, fields)) = shape(table, record) else {
        return false;
    };
    fields.iter().enumerate().all(|(place, field)| {
        let word = record[offset + place];
        match *field {
            Index(target) => (word as usize) < tables.count(target),
            IndexWhile { at, is, table: target } => {
                record[at] != is || (word as usize) < tables.count(target)
            }
            First(target) => list_inside(tables, target, word, record[offset + place + 1]),
            Nested => nested_inside(tables, index, word, record[offset + place + 1]),
            Free | UpTo(_) | While { .. } | Reference(_) => true,
        }
    })
}

/// "an empty list may start at the table's end, not past it"
fn list_inside(tables: &Tables<'_>, table: usize, first: u32, count: u32) -> bool {
    u64::from(first) + u64::from(count) <= tables.count(table) as u64
}

/// "or a non-empty nested list not starting after its holder"
fn nested_inside(tables: &Tables<'_>, holder: usize, first: u32, count: u32) -> bool {
    list_inside(tables, ACTIONS, first, count) && (count == 0 || first as usize > holder)
}
