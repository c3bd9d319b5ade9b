//! The records of a rule image: document 01, "Rule image", as one table. The reader, the writer, the speller and `explain` all go by it.

/// The eight tables of an image, in their order.
#[derive(Clone, Copy, Debug, PartialEq, Eq, PartialOrd, Ord, Hash)]
pub enum Table {
    Rules,
    Blocks,
    Triggers,
    Conditions,
    Actions,
    Values,
    Bounds,
    Pool,
}

use Table::{Actions, Bounds, Conditions, Pool, Triggers, Values};

impl Table {
    pub const ALL: [Table; 8] =
        [Table::Rules, Table::Blocks, Triggers, Conditions, Actions, Values, Bounds, Pool];

    pub fn place(self) -> usize {
        self as usize
    }

    /// Words a record.
    pub fn width(self) -> usize {
        match self {
            Table::Rules => 16,
            Pool => 1,
            _ => 8,
        }
    }

    pub fn name(self) -> &'static str {
        ["rules", "blocks", "triggers", "conditions", "actions", "values", "time bounds", "pool"][self.place()]
    }
}

/// What a word names.
#[derive(Clone, Copy, Debug, PartialEq, Eq, PartialOrd, Ord, Hash)]
pub enum Sort {
    Rule,
    Block,
    Timer,
    Var,
    Light,
    Verb,
    Text,
    Topic,
    Schedule,
    Counter,
}

impl Sort {
    pub const ALL: [Sort; 10] = [
        Sort::Rule,
        Sort::Block,
        Sort::Timer,
        Sort::Var,
        Sort::Light,
        Sort::Verb,
        Sort::Text,
        Sort::Topic,
        Sort::Schedule,
        Sort::Counter,
    ];

    /// The word for it in rules and in files of names.
    pub fn word(self) -> &'static str {
        ["rule", "block", "timer", "var", "light", "verb", "text", "topic", "schedule", "counter"][self as usize]
    }

    pub fn of_word(word: &str) -> Option<Sort> {
        Sort::ALL.into_iter().find(|sort| sort.word() == word)
    }

    /// "rule and timer names are numbered in byte order of their spelling"
    pub fn is_ordered(self) -> bool {
        matches!(self, Sort::Rule | Sort::Timer)
    }

    /// Whether a store remembers names of this sort by their numbers.
    pub fn is_kept_in_stores(self) -> bool {
        matches!(self, Sort::Rule | Sort::Timer | Sort::Var)
    }
}

/// What one word of a record may hold.
#[derive(Clone, Copy, Debug, PartialEq, Eq)]
pub enum Class {
    Free,
    /// A name of this sort: any word.
    Name(Sort),
    /// A name while word `at` of the record is `is`; void, so 0, otherwise.
    NameWhile(Sort, usize, u32),
    UpTo(u32),
    /// 0 to 255 while word `at` of the record is `is`; void, so 0, otherwise.
    SceneWhile(usize, u32),
    /// Part of the address that the reading code asks for.
    Reference(usize),
    Index(Table),
    /// An index while word 3 (the tag) is 0, the number of a text while it is 1.
    ValueOrText,
    /// A low word while word 2 (the tag) is 0, the number of a text while it is 1.
    LowOrText,
    /// The first record of a list; the count is the next word.
    First(Table),
    /// The same for a list nested in an action.
    Nested,
    Count,
    /// The count of scenes: 0 to 16.
    Scenes,
}

use Class::{Count, Free, Index, Name, NameWhile, Nested, Reference, SceneWhile, UpTo};

pub struct Field {
    pub name: &'static str,
    pub class: Class,
}

pub struct Kind {
    /// Document 01's name.
    pub name: &'static str,
    pub fields: &'static [Field],
}

const fn f(name: &'static str, class: Class) -> Field {
    Field { name, class }
}

macro_rules! kinds {
    ($($name:literal [$($field:literal : $class:expr),*])*) => {
        &[$(Kind { name: $name, fields: &[$(f($field, $class)),*] }),*]
    };
}

const BIT: Class = UpTo(1);
const BYTE: Class = UpTo(255);
const ID: Class = UpTo(65_535);
const CMP: Class = UpTo(5);
const DAYS: Class = UpTo(127);

static RULE: &[Kind] = kinds! {
    "rule" ["name": Name(Sort::Rule), "enabled": BIT, "hold_hcl": BIT, "cooldown_ms": Free,
        "first trigger": Class::First(Triggers), "number of triggers": Count,
        "first condition": Class::First(Conditions), "number of conditions": Count,
        "first action": Class::First(Actions), "number of actions": Count]
};

static BLOCK: &[Kind] = kinds! {
    "block" ["name": Name(Sort::Block), "first action": Class::First(Actions), "number of actions": Count]
};

static TRIGGER: &[Kind] = kinds! {
    "TimerFires" ["timer": Name(Sort::Timer)]
    "Every" ["period_ms": Free]
    "AtTime" ["hour": UpTo(23), "minute": UpTo(59), "days": DAYS]
    "AtSolar" ["event": BIT, "offset_ms": Free]
    "other" []
};

static CONDITION: &[Kind] = kinds! {
    "TimeInRange" ["start": Index(Bounds), "end": Index(Bounds)]
    "DayIn" ["days": DAYS]
    "SunIs" ["up": BIT]
    "LampIs" ["adapter": BYTE, "lamp id": ID, "on": BIT]
    "LampLevel" ["adapter": BYTE, "lamp id": ID, "comparison": CMP, "value": Index(Values)]
    "LampCct" ["adapter": BYTE, "lamp id": ID, "comparison": CMP, "value": Index(Values)]
    "GroupState" ["adapter": BYTE, "group id": ID, "state": BIT]
    "InputOccupancy" ["adapter": BYTE, "address": BYTE, "instance": BYTE, "occupied": BIT]
    "InputLight" ["adapter": BYTE, "address": BYTE, "instance": BYTE, "above": BIT, "threshold": Index(Values)]
    "HclState" ["target": Name(Sort::Light), "state": BIT]
    "DeviceOnline" ["adapter": BYTE, "address": BYTE]
    "RuleEnabled" ["rule": Name(Sort::Rule)]
    "LastFiredOlderThan" ["rule": Name(Sort::Rule), "than_ms": Free]
    "TimerRunning" ["timer": Name(Sort::Timer)]
    "ControllerActive" []
    "VarCompare" ["name": Name(Sort::Var), "comparison": CMP, "tag": BIT, "value or text": Class::ValueOrText]
};

static ACTION: &[Kind] = kinds! {
    "Light" ["target": Name(Sort::Light), "hold": UpTo(2), "answer": UpTo(2), "verb": NameWhile(Sort::Verb, 3, 0)]
    "Recall" ["answer": BIT, "scene": SceneWhile(1, 0), "target present": BIT, "target": NameWhile(Sort::Light, 3, 1)]
    "Apply" ["answer": BIT, "scene": SceneWhile(1, 0)]
    "Cycle" ["first scene": Class::First(Pool), "number of scenes": Class::Scenes]
    "HclResume" ["target": Name(Sort::Light)]
    "HclHold" ["target": Name(Sort::Light)]
    "HclEnable" ["schedule": Name(Sort::Schedule)]
    "HclDisable" ["schedule": Name(Sort::Schedule)]
    "FeedbackOn" ["adapter": BYTE, "address": BYTE, "instance": BYTE]
    "FeedbackOff" ["adapter": BYTE, "address": BYTE, "instance": BYTE]
    "PanelSelect" ["adapter": BYTE, "group": BYTE, "selected": Index(Values)]
    "CancelHold" ["adapter": BYTE, "address": BYTE, "instance": BYTE]
    "CatchMovement" ["adapter": BYTE, "address": BYTE, "instance": BYTE]
    "TimerStart" ["timer": Name(Sort::Timer), "duration_ms": Free]
    "TimerRestart" ["timer": Name(Sort::Timer), "duration_ms": Free]
    "TimerCancel" ["timer": Name(Sort::Timer)]
    "VarSet" ["name": Name(Sort::Var), "tag": BIT, "low word or text": Class::LowOrText, "high word or bytes": Free]
    "VarAdd" ["name": Name(Sort::Var), "delta": Index(Values)]
    "RuleEnable" ["rule": Name(Sort::Rule)]
    "RuleDisable" ["rule": Name(Sort::Rule)]
    "MqttPublish" ["topic": Name(Sort::Topic), "payload": Name(Sort::Text), "retain": BIT]
    "Log" ["text": Name(Sort::Text)]
    "StatCount" ["name": Name(Sort::Counter)]
    "Wait" ["duration_ms": Free]
    "After" ["delay_ms": Free, "first action": Nested, "number of actions": Count]
    "Call" ["block": Name(Sort::Block)]
    "Repeat" ["count": BYTE, "first action": Nested, "number of actions": Count]
    "Conditional" ["condition": Index(Conditions), "first action of then": Nested, "number of actions of then": Count,
        "first action of else": Nested, "number of actions of else": Count]
    "Percent" ["target": Name(Sort::Light), "hold": UpTo(2), "parts per million": Index(Values)]
};

static VALUE: &[Kind] = kinds! {
    "literal" ["low word": Free, "high word": Free]
    "reading" ["reading": UpTo(22), "reference 1": Reference(0), "reference 2": Reference(1), "reference 3": Reference(2)]
    "offset" ["reading": UpTo(22), "reference 1": Reference(0), "reference 2": Reference(1), "reference 3": Reference(2),
        "delta": Free]
};

static BOUND: &[Kind] = kinds! {
    "clock" ["hour": UpTo(23), "minute": UpTo(59)]
    "solar" ["event": BIT, "offset_ms": Free]
};

static POOL_WORD: &[Kind] = kinds! { "scene" ["scene": BYTE] };

/// Highest value of each reference word of readings 0 to 22; those that are not listed are 0.
pub fn reference_ranges(reading: u32) -> &'static [u32] {
    match reading {
        0..=6 => &[255, 65_535],
        7..=10 => &[255, 255, 255],
        18 => &[u32::MAX],
        _ => &[],
    }
}

pub const READING_VAR: u32 = 18;

/// The kinds of a table, and whether a record begins with its kind.
pub fn kinds(table: Table) -> (&'static [Kind], bool) {
    match table {
        Table::Rules => (RULE, false),
        Table::Blocks => (BLOCK, false),
        Triggers => (TRIGGER, true),
        Conditions => (CONDITION, true),
        Actions => (ACTION, true),
        Values => (VALUE, true),
        Bounds => (BOUND, true),
        Pool => (POOL_WORD, false),
    }
}

/// The kind of a record and the place of its first field; None: no such kind.
pub fn kind_of(table: Table, record: &[u32]) -> Option<(&'static Kind, usize)> {
    let (kinds, tagged) = kinds(table);
    if !tagged {
        return kinds.first().map(|kind| (kind, 0));
    }
    let number = usize::try_from(*record.first()?).ok()?;
    kinds.get(number).map(|kind| (kind, 1))
}

// Kinds that are looked for by number.
pub const LIGHT: u32 = 0;
pub const CYCLE: u32 = 3;
pub const TIMER_START: u32 = 13;
pub const TIMER_RESTART: u32 = 14;
pub const TIMER_CANCEL: u32 = 15;
pub const VAR_SET: u32 = 16;
pub const VAR_ADD: u32 = 17;
pub const RULE_ENABLE: u32 = 18;
pub const RULE_DISABLE: u32 = 19;
pub const WAIT: u32 = 23;
pub const AFTER: u32 = 24;
pub const CALL: u32 = 25;
pub const REPEAT: u32 = 26;
pub const CONDITIONAL: u32 = 27;
pub const PERCENT: u32 = 28;

pub const TIMER_FIRES: u32 = 0;
pub const EVERY: u32 = 1;
pub const AT_TIME: u32 = 2;
pub const AT_SOLAR: u32 = 3;
