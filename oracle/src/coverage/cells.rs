//! The rows and columns of the table, and the cells that nothing can reach.

/// A part of the table: its name, its rows, its columns.
pub(super) struct Part {
    pub name: &'static str,
    pub rows: &'static [&'static str],
    pub columns: &'static [&'static str],
}

pub(super) const ACTIONS: usize = 0;
pub(super) const CONDITIONS: usize = 1;
pub(super) const COMPARISONS: usize = 2;
pub(super) const READINGS: usize = 3;
pub(super) const VALUES: usize = 4;
pub(super) const TRIGGERS: usize = 5;
pub(super) const FAILS: usize = 6;
pub(super) const EFFECTS: usize = 7;
pub(super) const COUNTERS: usize = 8;
pub(super) const REFUSALS: usize = 9;
pub(super) const EVENTS: usize = 10;
pub(super) const SATURATIONS: usize = 11;
pub(super) const SET_BACKS: usize = 12;
pub(super) const SHARING: usize = 13;

pub(super) const PARTS: [Part; 14] = [
    Part {
        name: "action",
        rows: &[
            "Light", "Recall", "Apply", "Cycle", "HclResume", "HclHold", "HclEnable", "HclDisable",
            "FeedbackOn", "FeedbackOff", "PanelSelect", "CancelHold", "CatchMovement",
            "TimerStart", "TimerRestart", "TimerCancel", "VarSet", "VarAdd", "RuleEnable",
            "RuleDisable", "MqttPublish", "Log", "StatCount", "Wait", "After", "Call", "Repeat",
            "Conditional", "Percent",
        ],
        columns: &["effect", "nothing", "failed", "dry effect", "dry nothing", "dry failed"],
    },
    Part {
        name: "condition",
        rows: &[
            "TimeInRange", "DayIn", "SunIs", "LampIs", "LampLevel", "LampCct", "GroupState",
            "InputOccupancy", "InputLight", "HclState", "DeviceOnline", "RuleEnabled",
            "LastFiredOlderThan", "TimerRunning", "ControllerActive", "VarCompare value",
            "VarCompare text",
        ],
        columns: &["true", "false", "unevaluable", "branch true", "branch false", "branch unev."],
    },
    Part {
        name: "comparison",
        rows: &["Eq", "Ne", "Ge", "Le", "Gt", "Lt"],
        columns: &["true", "false"],
    },
    Part {
        name: "reading",
        rows: &[
            "LampLevel", "LampCct", "LampIsOn", "LampLastLevel", "GroupAnyOn", "GroupAllOff",
            "GroupMemberCount", "InputOccupied", "InputLight", "InputPosition",
            "InputLastEventAge", "TimeNow", "TimeHour", "TimeMinute", "TimeWeekday", "SunRise",
            "SunSet", "SunIsUp", "Var", "EventValue", "EventDevice", "EventInstance",
            "EventOption",
        ],
        columns: &["value", "unevaluable"],
    },
    Part {
        name: "value or bound",
        rows: &["literal", "reading", "offset", "clock bound", "solar bound"],
        columns: &["value", "unevaluable"],
    },
    Part {
        name: "trigger",
        rows: &["HttpTrigger", "TimerFires", "Every", "AtTime", "AtSolar"],
        columns: &["reason 0", "reason 1", "reason 2"],
    },
    Part {
        name: "cause of Fail",
        rows: &crate::generate::probe::FAILS,
        columns: &["wet", "dry"],
    },
    Part {
        name: "effect",
        rows: &[
            "Light", "SceneRecall", "SceneApply", "HclResume", "HclHold", "HclSchedule",
            "InputFeedback", "PanelSelect", "CancelHold", "CatchMovement", "MqttPublish", "Log",
            "Level",
        ],
        columns: &["wet", "dry"],
    },
    Part {
        name: "counter",
        rows: &[
            "activations_total", "activations_dry", "suppressed_cooldown", "suppressed_disabled",
            "conditions_rejected", "partial_outcomes", "effects_emitted",
            "actions_failed", "continuations_scheduled", "continuations_fired",
            "continuations_dropped", "ticks_time_unsynced", "pending", "timers", "rules",
            "variables",
        ],
        columns: &["moved"],
    },
    Part {
        name: "refusal",
        rows: &["1", "10", "11", "12", "13", "14", "15", "16", "17", "20", "21", "22", "30", "31", "32"],
        columns: &["new", "load", "unload", "enable", "tick", "run", "deadline", "counters"],
    },
    Part { name: "event", rows: &EVENT_ROWS, columns: &["seen"] },
    Part {
        name: "saturation",
        rows: &["VarAdd up", "VarAdd down", "offset up", "offset down"],
        columns: &["seen"],
    },
    Part {
        name: "clock behind",
        rows: &["0 minutes", "1 minute", "2 to 119 minutes", "120 minutes", "121 minutes"],
        columns: &["tick", "sun missed", "wall start"],
    },
    Part {
        name: "set that fits only by sharing",
        rows: &[
            "loaded", "wet run", "dry run", "tick that resumes", "resumption that waits", "32 pending",
            "disable that drops", "load that drops",
        ],
        columns: &["seen"],
    },
];

pub(super) const EVENT_ROWS: [&str; 29] = [
    "32 pending",
    "wait or after dropped, 32 pending",
    "32 continuations fire in one tick",
    "load drops continuations",
    "unload drops continuations",
    "disabling drops continuations",
    "16 timers",
    "16 variables",
    "enable answered yes",
    "enable answered no",
    "run without outcome",
    "run that moves no counter",
    "tick without a set",
    "tick with two outcomes or more",
    "one tick with two sorts of triggers",
    "deadline none",
    "deadline at a time",
    "due time saturates at 2^64 - 1",
    "tick or run at 2^64 - 1",
    "clock set back",
    "wall clock set back or past the week's end",
    "wall clock absent",
    "sun absent",
    "due timers go without an outcome",
    "due timers go in a set without rules",
    "due timers remain without a set",
    "sequence number above 2^63",
    "activation number above 2^63",
    "effects of one outcome: 32 or more",
];

/// Part, row, column and why nothing reaches the cell; `*` is any row or column.
pub(super) const UNREACHABLE: &[(usize, &str, &str, &str)] = &[
    (ACTIONS, "Recall", "*nothing", "a scene is recalled or unevaluable"),
    (ACTIONS, "Apply", "*nothing", "a scene is applied or unevaluable"),
    (ACTIONS, "Cycle", "*nothing", "an empty cycle fails, any other recalls"),
    (ACTIONS, "HclResume", "*nothing", "always an effect"),
    (ACTIONS, "HclResume", "*failed", "always an effect"),
    (ACTIONS, "HclHold", "*nothing", "always an effect"),
    (ACTIONS, "HclHold", "*failed", "always an effect"),
    (ACTIONS, "HclEnable", "*nothing", "always an effect"),
    (ACTIONS, "HclEnable", "*failed", "always an effect"),
    (ACTIONS, "HclDisable", "*nothing", "always an effect"),
    (ACTIONS, "HclDisable", "*failed", "always an effect"),
    (ACTIONS, "FeedbackOn", "*nothing", "always an effect"),
    (ACTIONS, "FeedbackOn", "*failed", "always an effect"),
    (ACTIONS, "FeedbackOff", "*nothing", "always an effect"),
    (ACTIONS, "FeedbackOff", "*failed", "always an effect"),
    (ACTIONS, "PanelSelect", "*nothing", "an effect, or unevaluable or over the group limit"),
    (ACTIONS, "CancelHold", "*nothing", "always an effect"),
    (ACTIONS, "CancelHold", "*failed", "always an effect"),
    (ACTIONS, "CatchMovement", "*nothing", "always an effect"),
    (ACTIONS, "CatchMovement", "*failed", "always an effect"),
    (ACTIONS, "TimerStart", "*effect", "timers give no effect"),
    (ACTIONS, "TimerStart", "dry failed", "a dry run does not notice the 16 timers"),
    (ACTIONS, "TimerRestart", "*effect", "timers give no effect"),
    (ACTIONS, "TimerRestart", "dry failed", "a dry run does not notice the 16 timers"),
    (ACTIONS, "TimerCancel", "*effect", "timers give no effect"),
    (ACTIONS, "TimerCancel", "*failed", "cancelling always succeeds"),
    (ACTIONS, "VarSet", "*effect", "variables give no effect"),
    (ACTIONS, "VarAdd", "*effect", "variables give no effect"),
    (ACTIONS, "RuleEnable", "*effect", "rule bits give no effect"),
    (ACTIONS, "RuleDisable", "*effect", "rule bits give no effect"),
    (ACTIONS, "MqttPublish", "*nothing", "always an effect"),
    (ACTIONS, "MqttPublish", "*failed", "always an effect"),
    (ACTIONS, "Log", "*nothing", "always an effect"),
    (ACTIONS, "Log", "*failed", "always an effect"),
    (ACTIONS, "StatCount", "*effect", "spends its step and gives nothing"),
    (ACTIONS, "StatCount", "*failed", "spends its step and gives nothing"),
    (ACTIONS, "Wait", "*effect", "a wait gives no effect"),
    (ACTIONS, "Wait", "*failed", "a dropped wait is reason 2, not a failed action"),
    (ACTIONS, "After", "effect", "a wet after only schedules its body"),
    (ACTIONS, "Percent", "*nothing", "a level, or none: then it fails"),
    (CONDITIONS, "HclState", "*unev*", "an absent row is false"),
    (CONDITIONS, "DeviceOnline", "*unev*", "an absent device is false"),
    (CONDITIONS, "RuleEnabled", "*unev*", "an unknown rule is false"),
    (CONDITIONS, "LastFiredOlderThan", "*unev*", "a rule that never fired is older than anything"),
    (CONDITIONS, "TimerRunning", "*unev*", "true or false"),
    (CONDITIONS, "ControllerActive", "*unev*", "true or false"),
    (CONDITIONS, "VarCompare text", "*unev*", "any other pairing is decided by the comparison"),
    (READINGS, "EventValue", "value", "ticks and runs carry no event"),
    (READINGS, "EventDevice", "value", "ticks and runs carry no event"),
    (READINGS, "EventInstance", "value", "ticks and runs carry no event"),
    (READINGS, "EventOption", "value", "ticks and runs carry no event"),
    (VALUES, "literal", "unevaluable", "a literal is a value"),
    (VALUES, "clock bound", "unevaluable", "a clock bound is a minute"),
    (SET_BACKS, "0 minutes", "sun missed", "no minute has passed"),
    (SET_BACKS, "0 minutes", "wall start", "no minute has passed"),
    (SET_BACKS, "1 minute", "sun missed", "a clock set back counts nothing"),
    (SET_BACKS, "1 minute", "wall start", "a clock set back starts nothing"),
    (SET_BACKS, "2 to 119 minutes", "sun missed", "a clock set back counts nothing"),
    (SET_BACKS, "2 to 119 minutes", "wall start", "a clock set back starts nothing"),
    (SET_BACKS, "120 minutes", "sun missed", "a clock set back counts nothing"),
    (SET_BACKS, "120 minutes", "wall start", "a clock set back starts nothing"),
    (REFUSALS, "10", "*", "only load is given an image"),
    (REFUSALS, "11", "*", "only load is given an image"),
    (REFUSALS, "12", "*", "only load is given an image"),
    (REFUSALS, "13", "*", "only load is given an image"),
    (REFUSALS, "14", "*", "only load is given an image"),
    (REFUSALS, "15", "*", "only load is given an image"),
    (REFUSALS, "16", "*", "only load is given an image"),
    (REFUSALS, "17", "*", "only load is given an image"),
    (REFUSALS, "20", "*", "only tick and run are given a snapshot"),
    (REFUSALS, "21", "*", "only tick and run are given a snapshot"),
    (REFUSALS, "22", "*", "only tick and run are given a snapshot"),
    (REFUSALS, "30", "*", "only tick and run are lent stores for answers"),
    (REFUSALS, "31", "*", "only tick and run accept continuations"),
    (REFUSALS, "32", "*", "only tick and run activate rules"),
];

/// Why nothing reaches a cell, None if something can.
pub(super) fn unreachable(part: usize, row: &str, column: &str) -> Option<&'static str> {
    if part == REFUSALS && possible_refusal(row, column) {
        return None;
    }
    UNREACHABLE
        .iter()
        .find(|(p, r, c, _)| *p == part && fits(r, row) && fits(c, column))
        .map(|(_, _, _, why)| *why)
}

fn possible_refusal(number: &str, call: &str) -> bool {
    match number {
        "1" => true,
        "20" | "21" | "22" | "30" | "31" | "32" => matches!(call, "tick" | "run"),
        _ => call == "load",
    }
}

/// A pattern with `*` at its start, its end, or both.
fn fits(pattern: &str, name: &str) -> bool {
    match (pattern.strip_prefix('*'), pattern.strip_suffix('*')) {
        (None, None) => pattern == name,
        (Some(""), _) => true,
        (Some(rest), None) => name.ends_with(rest),
        (None, Some(start)) => name.starts_with(start),
        (Some(_), Some(_)) => name.contains(pattern.trim_matches('*')),
    }
}
