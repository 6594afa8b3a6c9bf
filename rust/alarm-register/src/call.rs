//! Operations 1 to 4, each as a value that is built up and written as a call.
use crate::bytes::{CallBytes, Fields};
use crate::layout::longest;
use crate::object::Object;
use crate::setters::setters;
use crate::time::Time;
use crate::values::{Action, Severity};

/// 1: raises an alarm, or updates the active one with the same key. [`check`](crate::Operation::check) tells before it is sent what
/// a register would refuse in it.
#[derive(Clone, Copy, Debug, PartialEq, Eq)]
pub struct Raise<'a> {
    /// When.
    pub time: Time,
    /// The id that a new alarm gets; an active alarm keeps its own.
    pub id: &'a str,
    /// The type. Type, cause, object, tenant, slice and region make the key: what is equal in them is one alarm.
    pub alarm_type: &'a str,
    /// How bad.
    pub severity: Severity,
    /// Why: one of the 21 names, or `other:` and a name with a dot.
    pub cause: &'a str,
    /// What is affected.
    pub object: Object<'a>,
    /// The tenant, if any.
    pub tenant: Option<&'a str>,
    /// The slice, if any.
    pub slice: Option<&'a str>,
    /// The region, if any; not empty.
    pub region: Option<&'a str>,
    /// A text for people, of at most 120 code points ([`TEXT_CODE_POINTS`](crate::TEXT_CODE_POINTS)) and 256 bytes.
    pub text: &'a str,
    /// Details: any bytes.
    pub details: Option<&'a [u8]>,
}

impl<'a> Raise<'a> {
    /// A raise without tenant, slice, region, text and details.
    pub fn new(time: Time, id: &'a str, alarm_type: &'a str, severity: Severity, cause: &'a str, object: Object<'a>) -> Self {
        let (tenant, slice, region, text, details) = (None, None, None, "", None);
        Raise { time, id, alarm_type, severity, cause, object, tenant, slice, region, text, details }
    }

    setters! {
        /// For a tenant.
        tenant: &'a str => Some(tenant);
        /// For a slice.
        slice: &'a str => Some(slice);
        /// In a region.
        region: &'a str => Some(region);
        /// With a text.
        text: &'a str => text;
        /// With details.
        details: &'a [u8] => Some(details);
    }

    pub(crate) fn write(&self) -> CallBytes {
        let mut call = CallBytes::new(1);
        call.time(self.time);
        call.string(self.id.as_bytes(), longest::ID);
        call.string(self.alarm_type.as_bytes(), longest::TYPE);
        call.byte(self.severity.byte());
        call.string(self.cause.as_bytes(), longest::CAUSE);
        call.object(&self.object);
        call.option(self.tenant.map(str::as_bytes), longest::TENANT);
        call.option(self.slice.map(str::as_bytes), longest::SLICE);
        call.option(self.region.map(str::as_bytes), longest::REGION);
        call.string(self.text.as_bytes(), longest::TEXT);
        call.option(self.details, longest::DETAILS);
        call
    }

    pub(crate) fn read(fields: &mut Fields<'a>) -> Option<Self> {
        Some(Raise {
            time: fields.time()?,
            id: fields.string(longest::ID)?,
            alarm_type: fields.string(longest::TYPE)?,
            severity: Severity::from_byte(fields.byte()?)?,
            cause: fields.string(longest::CAUSE)?,
            object: fields.object()?,
            tenant: fields.option(longest::TENANT)?,
            slice: fields.option(longest::SLICE)?,
            region: fields.option(longest::REGION)?,
            text: fields.string(longest::TEXT)?,
            details: if fields.flag()? { Some(fields.bytes(longest::DETAILS)?) } else { None },
        })
    }
}

/// 2: clears the active alarm with the key of these fields.
#[derive(Clone, Copy, Debug, PartialEq, Eq)]
pub struct Clear<'a> {
    /// When.
    pub time: Time,
    /// The type.
    pub alarm_type: &'a str,
    /// The cause.
    pub cause: &'a str,
    /// The affected object.
    pub object: Object<'a>,
    /// The tenant, if any.
    pub tenant: Option<&'a str>,
    /// The slice, if any.
    pub slice: Option<&'a str>,
    /// The region, if any.
    pub region: Option<&'a str>,
}

impl<'a> Clear<'a> {
    /// A clear without tenant, slice and region.
    pub fn new(time: Time, alarm_type: &'a str, cause: &'a str, object: Object<'a>) -> Self {
        Clear { time, alarm_type, cause, object, tenant: None, slice: None, region: None }
    }

    setters! {
        /// For a tenant.
        tenant: &'a str => Some(tenant);
        /// For a slice.
        slice: &'a str => Some(slice);
        /// In a region.
        region: &'a str => Some(region);
    }

    pub(crate) fn write(&self) -> CallBytes {
        let mut call = CallBytes::new(2);
        call.time(self.time);
        call.string(self.alarm_type.as_bytes(), longest::TYPE);
        call.string(self.cause.as_bytes(), longest::CAUSE);
        call.object(&self.object);
        call.option(self.tenant.map(str::as_bytes), longest::TENANT);
        call.option(self.slice.map(str::as_bytes), longest::SLICE);
        call.option(self.region.map(str::as_bytes), longest::REGION);
        call
    }

    pub(crate) fn read(fields: &mut Fields<'a>) -> Option<Self> {
        Some(Clear {
            time: fields.time()?,
            alarm_type: fields.string(longest::TYPE)?,
            cause: fields.string(longest::CAUSE)?,
            object: fields.object()?,
            tenant: fields.option(longest::TENANT)?,
            slice: fields.option(longest::SLICE)?,
            region: fields.option(longest::REGION)?,
        })
    }
}

/// 3 and 4: acknowledges or suppresses an alarm by its id, without policy and without an audit event.
#[derive(Clone, Copy, Debug, PartialEq, Eq)]
pub struct PlainAction<'a> {
    /// Which of the two.
    pub action: Action,
    /// When.
    pub time: Time,
    /// The alarm's id.
    pub id: &'a str,
    /// Whether the cabinet's own authoriser allows it.
    pub authorised: bool,
}

impl<'a> PlainAction<'a> {
    /// An acknowledgement that is not authorised; see `authorised`.
    pub fn acknowledge(time: Time, id: &'a str) -> Self {
        PlainAction { action: Action::Acknowledge, time, id, authorised: false }
    }

    /// A suppression that is not authorised; see `authorised`.
    pub fn suppress(time: Time, id: &'a str) -> Self {
        PlainAction { action: Action::Suppress, time, id, authorised: false }
    }

    setters! {
        /// What the authoriser said.
        authorised: bool => authorised;
    }

    pub(crate) fn write(&self) -> CallBytes {
        let mut call = CallBytes::new(3 + self.action.byte());
        call.time(self.time);
        call.string(self.id.as_bytes(), longest::ID);
        call.flag(self.authorised);
        call
    }

    pub(crate) fn read(action: Action, fields: &mut Fields<'a>) -> Option<Self> {
        Some(PlainAction { action, time: fields.time()?, id: fields.string(longest::ID)?, authorised: fields.flag()? })
    }
}
