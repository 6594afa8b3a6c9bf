//! The bytes of a call: written field by field, and read back.
use crate::layout::longest;
use crate::object::{Object, Scope};
use crate::time::Time;
use core::fmt;

/// The longest call: a raise of kind 8 with every string at its limit.
pub const CALL_ROOM: usize = 1433;

/// The bytes of one call.
///
/// A string that is longer than its limit is written as its length alone, and the call ends there: the register refuses such
/// a call with 26 before it would read the string, so no room is needed for it and no limit is tested twice.
#[derive(Clone)]
pub struct CallBytes {
    bytes: [u8; CALL_ROOM],
    length: usize,
    ended: bool,
}

impl CallBytes {
    pub(crate) fn new(operation: u8) -> CallBytes {
        let mut call = CallBytes { bytes: [0; CALL_ROOM], length: 0, ended: false };
        call.byte(operation);
        call
    }

    /// The call as the register takes it.
    pub fn as_bytes(&self) -> &[u8] {
        &self.bytes[..self.length]
    }

    pub(crate) fn raw(&mut self, bytes: &[u8]) {
        if !self.ended {
            self.bytes[self.length..self.length + bytes.len()].copy_from_slice(bytes);
            self.length += bytes.len();
        }
    }

    pub(crate) fn byte(&mut self, byte: u8) {
        self.raw(&[byte]);
    }

    pub(crate) fn flag(&mut self, yes: bool) {
        self.byte(u8::from(yes));
    }

    pub(crate) fn time(&mut self, time: Time) {
        self.raw(&time.0.to_be_bytes());
    }

    pub(crate) fn string(&mut self, string: &[u8], longest: usize) {
        self.raw(&u32::try_from(string.len()).unwrap_or(u32::MAX).to_be_bytes());
        self.ended |= string.len() > longest;
        if !self.ended {
            self.raw(string);
        }
    }

    pub(crate) fn option(&mut self, string: Option<&[u8]>, longest: usize) {
        self.flag(string.is_some());
        if let Some(string) = string {
            self.string(string, longest);
        }
    }

    pub(crate) fn object(&mut self, object: &Object<'_>) {
        let (first, second, queue) = object.parts();
        self.byte(object.kind());
        self.string(first.as_bytes(), longest::OBJECT);
        match object {
            Object::SessionStore { .. } => self.option(second.map(str::as_bytes), longest::OBJECT),
            _ => second.into_iter().for_each(|string| self.string(string.as_bytes(), longest::OBJECT)),
        }
        queue.into_iter().for_each(|queue| self.raw(&queue.to_be_bytes()));
    }

    pub(crate) fn scope(&mut self, scope: &Scope<'_>) {
        self.byte(scope.kind());
        scope.string().into_iter().for_each(|string| self.string(string.as_bytes(), longest::SCOPE));
    }
}

impl fmt::Debug for CallBytes {
    fn fmt(&self, f: &mut fmt::Formatter<'_>) -> fmt::Result {
        f.debug_tuple("CallBytes").field(&self.as_bytes()).finish()
    }
}

/// Reads fields from the front of a slice; `None` where a field is not there or not legal.
#[derive(Clone)]
pub(crate) struct Fields<'a>(pub(crate) &'a [u8]);

impl<'a> Fields<'a> {
    pub(crate) fn take(&mut self, count: usize) -> Option<&'a [u8]> {
        let (taken, rest) = self.0.split_at_checked(count)?;
        self.0 = rest;
        Some(taken)
    }

    pub(crate) fn array<const N: usize>(&mut self) -> Option<[u8; N]> {
        self.take(N)?.try_into().ok()
    }

    pub(crate) fn byte(&mut self) -> Option<u8> {
        self.array::<1>().map(|[byte]| byte)
    }

    pub(crate) fn flag(&mut self) -> Option<bool> {
        match self.byte()? {
            0 => Some(false),
            1 => Some(true),
            _ => None,
        }
    }

    pub(crate) fn u16(&mut self) -> Option<u16> {
        self.array().map(u16::from_be_bytes)
    }

    pub(crate) fn u32(&mut self) -> Option<u32> {
        self.array().map(u32::from_be_bytes)
    }

    pub(crate) fn u64(&mut self) -> Option<u64> {
        self.array().map(u64::from_be_bytes)
    }

    pub(crate) fn time(&mut self) -> Option<Time> {
        self.array().map(|bytes| Time(i64::from_be_bytes(bytes)))
    }

    pub(crate) fn bytes(&mut self, longest: usize) -> Option<&'a [u8]> {
        let length = usize::try_from(self.u32()?).ok()?;
        if length > longest {
            return None;
        }
        self.take(length)
    }

    pub(crate) fn string(&mut self, longest: usize) -> Option<&'a str> {
        core::str::from_utf8(self.bytes(longest)?).ok()
    }

    pub(crate) fn option(&mut self, longest: usize) -> Option<Option<&'a str>> {
        if self.flag()? {
            self.string(longest).map(Some)
        } else {
            Some(None)
        }
    }

    pub(crate) fn object(&mut self) -> Option<Object<'a>> {
        let kind = self.byte()?;
        let first = self.string(longest::OBJECT)?;
        let second = match kind {
            4 => self.option(longest::OBJECT)?,
            1..=3 | 8 => Some(self.string(longest::OBJECT)?),
            _ => None,
        };
        let queue = if kind == 8 { Some(self.u16()?) } else { None };
        Object::of_parts(kind, first, second, queue)
    }

    pub(crate) fn scope(&mut self) -> Option<Scope<'a>> {
        match self.byte()? {
            0 => self.string(longest::SCOPE).map(Scope::Alarm),
            1 => self.string(longest::SCOPE).map(Scope::Tenant),
            2 => Some(Scope::Global),
            _ => None,
        }
    }
}
