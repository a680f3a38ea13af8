//! The calls that are compared, and the rows of the refusal table that document 01 has each of them try.

#[derive(Clone, Copy, PartialEq, Eq, Debug)]
pub enum Call {
    Grouping,
    Checking,
    Thinning,
    GroupingRecords,
    CheckingRecords,
    ThinningRecords,
    Read,
    WriteInput,
    WriteResult,
    Bones,
    Thin,
}

/// Every call in its place, the programs last: served/library.c counts the calls from C in this order.
pub const CALLS: [Call; 11] = [
    Call::Grouping,
    Call::Checking,
    Call::Thinning,
    Call::GroupingRecords,
    Call::CheckingRecords,
    Call::ThinningRecords,
    Call::Read,
    Call::WriteInput,
    Call::WriteResult,
    Call::Bones,
    Call::Thin,
];

/// The programs.
pub const PROGRAMS: [Call; 2] = [Call::Bones, Call::Thin];

impl Call {
    pub fn name(self) -> &'static str {
        match self {
            Call::Grouping => "grouping",
            Call::Checking => "checking",
            Call::Thinning => "thinning",
            Call::GroupingRecords => "grouping_records",
            Call::CheckingRecords => "checking_records",
            Call::ThinningRecords => "thinning_records",
            Call::Read => "read",
            Call::WriteInput => "write_input",
            Call::WriteResult => "write_result",
            Call::Bones => "bones",
            Call::Thin => "thin",
        }
    }

    pub fn from_name(name: &str) -> Option<Call> {
        CALLS.into_iter().find(|call| call.name() == name)
    }

    /// Whether it is a program, from a text to a text; else it is a call from C.
    pub fn is_program(self) -> bool {
        PROGRAMS.contains(&self)
    }

    /// Whether links are records, given or read; else they are bytes.
    pub fn has_records(self) -> bool {
        !self.is_program() && !matches!(self, Call::Grouping | Call::Checking | Call::Thinning)
    }

    /// The call that does the same over records.
    pub fn over_records(self) -> Call {
        match self {
            Call::Grouping => Call::GroupingRecords,
            Call::Checking => Call::CheckingRecords,
            Call::Thinning => Call::ThinningRecords,
            other => other,
        }
    }

    /// Whether the row is among those that the call tries, and can then be given.
    pub fn may_refuse(self, row: usize) -> bool {
        match self {
            Call::Grouping | Call::GroupingRecords => matches!(row, 1..=13),
            Call::Checking | Call::CheckingRecords => matches!(row, 1..=7 | 9..=13),
            Call::Thinning | Call::ThinningRecords => matches!(row, 1..=6 | 14),
            Call::Read => matches!(row, 3 | 8 | 9 | 14..=19),
            Call::WriteInput => matches!(row, 1..=6 | 9 | 20),
            Call::WriteResult => matches!(row, 1..=6 | 9..=13 | 20),
            // The reader's in all the room that a text may want, then grouping's on what was read.
            Call::Bones => matches!(row, 1..=6 | 9..=13 | 15..=19),
            // The reader's in that room, then thinning's; the links kept are none that the input writer refuses.
            Call::Thin => matches!(row, 1..=6 | 9 | 15..=19),
        }
    }
}
