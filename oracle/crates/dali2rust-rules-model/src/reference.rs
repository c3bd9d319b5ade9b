#[derive(Debug, Clone, Copy, PartialEq, Eq)]
pub struct DurationMs(pub u32);

#[derive(Debug, Clone, Copy, PartialEq, Eq)]
pub struct LampRef {
    pub adapter_id: u8,
    pub id: u16,
}

#[derive(Debug, Clone, Copy, PartialEq, Eq)]
pub struct GroupRef {
    pub adapter_id: u8,
    pub id: u16,
}

#[derive(Debug, Clone, Copy, PartialEq, Eq)]
pub struct DeviceRef {
    pub adapter_id: u8,
    pub short_address: u8,
}

#[derive(Debug, Clone, Copy, PartialEq, Eq)]
pub struct InputRef {
    pub adapter_id: u8,
    pub device_short_address: u8,
    pub instance_number: u8,
}

#[derive(Debug, Clone, Copy, PartialEq, Eq)]
pub struct InputDeviceRef {
    pub adapter_id: u8,
    pub device_short_address: u8,
}

#[derive(Debug, Clone, Copy, PartialEq, Eq)]
pub struct GroupSelector {
    pub adapter_id: u8,
    pub instance_group: u8,
    pub instance_type: Option<u8>,
}

#[derive(Debug, Clone, Copy, PartialEq, Eq)]
pub enum InputSelector {
    Instance(InputRef),
    Group(GroupSelector),
}

/// Document 01: "each ... light target is one word". Every number is decoded as `Lamp`, with the
/// whole word in `number`; the engine only copies and compares targets here, since the functions
/// that look inside one stand behind `light_verb` and chain memory, which are left out.
#[derive(Debug, Clone, Copy, PartialEq, Eq)]
pub enum LightTarget {
    Lamp(TargetNumber),
    Group(GroupRef),
    Broadcast { adapter_id: u8 },
}

#[derive(Debug, Clone, Copy, PartialEq, Eq)]
pub struct TargetNumber {
    pub adapter_id: u8,
    pub id: u16,
    pub number: u32,
}

impl LightTarget {
    #[must_use]
    pub fn numbered(number: u32) -> LightTarget {
        LightTarget::Lamp(TargetNumber {
            adapter_id: 0,
            id: 0,
            number,
        })
    }

    /// The caller's word; a target that was not decoded from a word has none.
    #[must_use]
    pub fn number(&self) -> Option<u32> {
        match self {
            LightTarget::Lamp(target) => Some(target.number),
            LightTarget::Group(_) | LightTarget::Broadcast { .. } => None,
        }
    }
}

/// A text is its number. Its byte length counts only against the text limit, not in a comparison.
#[derive(Debug, Clone, Copy)]
pub struct Text {
    pub number: u32,
    pub bytes: u32,
}

impl Text {
    // The engine asks for nothing but the length.
    #[allow(clippy::len_without_is_empty)]
    #[must_use]
    pub fn len(&self) -> usize {
        self.bytes as usize
    }
}

impl PartialEq for Text {
    fn eq(&self, other: &Text) -> bool {
        self.number == other.number
    }
}

#[derive(Debug, Clone, Copy, PartialEq, Eq)]
pub struct Weekday(u8);

impl Weekday {
    pub const ALL: [Weekday; 7] = [
        Weekday(0),
        Weekday(1),
        Weekday(2),
        Weekday(3),
        Weekday(4),
        Weekday(5),
        Weekday(6),
    ];

    #[must_use]
    pub fn index(self) -> u8 {
        self.0
    }
}

/// Bit d stands for weekday d.
#[derive(Debug, Clone, Copy, PartialEq, Eq)]
pub struct DaySet(pub u8);

impl DaySet {
    #[must_use]
    pub fn contains(self, day: Weekday) -> bool {
        self.0 >> day.index() & 1 == 1
    }
}
