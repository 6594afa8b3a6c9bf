//! Where things lie in records and in a panel block, and how long strings may be. docs/LAYOUT.md explains each; docs/layout.json has the same
//! offsets.

/// The width of a record, and of the header.
pub const RECORD_WIDTH: usize = 1536;
/// The width of an answer's head.
pub const HEAD_WIDTH: usize = 16;
/// Room for the answer of every operation that gives no list: a head and one record.
pub const ANSWER_ROOM: usize = HEAD_WIDTH + RECORD_WIDTH;
/// The width of a panel block.
pub const PANEL_WIDTH: usize = 8;
/// The most code points of a raise's text, as [`str::chars`] counts them. A text that is stored already may have more.
pub const TEXT_CODE_POINTS: usize = 120;

/// Longest strings, in bytes.
pub mod longest {
    /// The id of an alarm.
    pub const ID: usize = 64;
    /// The type of an alarm.
    pub const TYPE: usize = 64;
    /// Each string of an affected object.
    pub const OBJECT: usize = 64;
    /// A tenant.
    pub const TENANT: usize = 64;
    /// A slice.
    pub const SLICE: usize = 64;
    /// Who acts.
    pub const PRINCIPAL: usize = 64;
    /// The correlation of an action.
    pub const CORRELATION: usize = 64;
    /// The string of a scope.
    pub const SCOPE: usize = 64;
    /// A cause.
    pub const CAUSE: usize = 96;
    /// A region.
    pub const REGION: usize = 128;
    /// The message of a denial.
    pub const DENIAL: usize = 128;
    /// The text of an alarm; that of a raise has at most [`TEXT_CODE_POINTS`](super::TEXT_CODE_POINTS) as well.
    pub const TEXT: usize = 256;
    /// The reason of an action.
    pub const REASON: usize = 256;
    /// The details of an alarm.
    pub const DETAILS: usize = 512;
}

/// Where a string lies: a u16 length at `at`, its room of `longest` bytes behind.
#[derive(Clone, Copy, Debug)]
pub struct StringSlot {
    /// The field's name in docs/LAYOUT.md.
    pub name: &'static str,
    /// The offset of the length.
    pub at: usize,
    /// The room behind the length.
    pub longest: usize,
}

const fn slot(name: &'static str, at: usize, longest: usize) -> StringSlot {
    StringSlot { name, at, longest }
}

/// Offsets in the header.
pub mod header {
    /// The three limits: active, history, audit.
    pub const LIMITS: [usize; 3] = [0, 4, 8];
    /// The heads of the four chains: active, history, audit, free. A chain's length is four bytes behind its head.
    pub const HEADS: [usize; 4] = [12, 20, 28, 36];
    /// Audit events stored.
    pub const SUCCESSES: usize = 44;
    /// Audit events lost.
    pub const FAILURES: usize = 52;
    /// The first byte without meaning.
    pub const SPARE: usize = 60;
}

/// Offsets in an alarm record. An option's byte stands before its string's length.
pub mod alarm {
    use super::{longest, slot, StringSlot};
    /// The 16 bytes of the key.
    pub const KEY: usize = 4;
    /// The severity.
    pub const SEVERITY: usize = 20;
    /// The state.
    pub const STATE: usize = 21;
    /// When it was raised.
    pub const RAISED_AT: usize = 22;
    /// When it last changed.
    pub const UPDATED_AT: usize = 30;
    /// When it was cleared: the option's byte; the time is behind it.
    pub const CLEARED_AT: usize = 38;
    /// The id.
    pub const ID: StringSlot = slot("id", 47, longest::ID);
    /// The type.
    pub const TYPE: StringSlot = slot("type", 113, longest::TYPE);
    /// The cause.
    pub const CAUSE: StringSlot = slot("cause", 179, longest::CAUSE);
    /// The kind of the affected object.
    pub const OBJECT_KIND: usize = 277;
    /// Its two strings. Kind 4 has an option's byte before the second.
    pub const OBJECT: [StringSlot; 2] =
        [slot("object string 0", 278, longest::OBJECT), slot("object string 1", 345, longest::OBJECT)];
    /// The queue of kind 8.
    pub const QUEUE: usize = 411;
    /// The tenant, optional.
    pub const TENANT: StringSlot = slot("tenant", 414, longest::TENANT);
    /// The slice, optional.
    pub const SLICE: StringSlot = slot("slice", 481, longest::SLICE);
    /// The region, optional.
    pub const REGION: StringSlot = slot("region", 548, longest::REGION);
    /// The text.
    pub const TEXT: StringSlot = slot("text", 678, longest::TEXT);
    /// The details, optional, any bytes.
    pub const DETAILS: StringSlot = slot("details", 937, longest::DETAILS);
    /// How often it was raised, a u32; any value is sound.
    pub const RAISES: usize = 1451;
    /// When its suppression ends: the option's byte; the time is behind it. Present in state suppressed alone.
    pub const END: usize = 1455;
    /// Text and details with their lengths and the option's byte: what twins may differ in.
    pub const TEXTS: core::ops::Range<usize> = 678..1451;
}

/// Offsets in an event record.
pub mod event {
    use super::{longest, slot, StringSlot};
    /// The action.
    pub const ACTION: usize = 4;
    /// The outcome.
    pub const OUTCOME: usize = 5;
    /// When it happened.
    pub const OCCURRED_AT: usize = 6;
    /// The alarm's id.
    pub const ID: StringSlot = slot("id", 14, longest::ID);
    /// The alarm's type.
    pub const TYPE: StringSlot = slot("type", 80, longest::TYPE);
    /// The alarm's cause.
    pub const CAUSE: StringSlot = slot("cause", 146, longest::CAUSE);
    /// Who acted.
    pub const PRINCIPAL: StringSlot = slot("principal", 244, longest::PRINCIPAL);
    /// For which tenant, optional.
    pub const TENANT: StringSlot = slot("tenant", 311, longest::TENANT);
    /// Why.
    pub const REASON: StringSlot = slot("reason", 377, longest::REASON);
    /// The kind of the scope.
    pub const SCOPE_KIND: usize = 635;
    /// The string of the scope.
    pub const SCOPE: StringSlot = slot("scope string", 636, longest::SCOPE);
    /// The correlation, optional.
    pub const CORRELATION: StringSlot = slot("correlation", 703, longest::CORRELATION);
}

/// Offsets in a panel block.
pub mod panel {
    /// The flags: a bit for each severity of which an active alarm is raised or updated.
    pub const FLAGS: usize = 0;
    /// The mask: a bit for each severity that is let through.
    pub const MASK: usize = 1;
    /// One more than the highest severity that is flagged and let through, or 0.
    pub const WAITING: usize = 2;
    /// 1 if any is, else 0.
    pub const LIT: usize = 3;
    /// How many alarms are active, a u32.
    pub const ACTIVE: usize = 4;
}
