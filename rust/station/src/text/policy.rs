//! Calls with policy, read from lines.
use super::call::plain;
use super::cursor::{Cursor, Fault};
use super::date::Calendar;
use super::fields::{self, Fields, Value};
use super::Parsed;
use alarm_register::layout::longest;
use alarm_register::{Action, Call, PolicyAction, Scope, SuppressUntil, Time};

/// The operation that has an end behind it.
pub const SUPPRESS_UNTIL: &str = "suppress-until";

/// An acknowledgement or a suppression without an end.
pub fn action(action: Action, time: Time, fields: &mut Fields) -> Result<Parsed, Fault> {
    let policy = PolicyFields::read(fields)?;
    Ok(plain(Call::Policy(policy.action(action, time))))
}

/// A suppression with its end, which stands behind the operation as cutoffs do: in a field it would need quotes.
pub fn suppress_until(time: Time, line: &mut Cursor<'_>, calendar: &Calendar) -> Result<Parsed, Fault> {
    line.blanks();
    let start = line.clone();
    if !start.peek().is_some_and(|c| c.is_ascii_digit()) {
        return Err(start.fault("the end stands here: suppress-until 2026-03-14 16:00 id=.."));
    }
    let end = calendar.time(line)?;
    let mut fields = fields::read(line)?;
    let policy = PolicyFields::read(&mut fields)?;
    fields.none_left(SUPPRESS_UNTIL)?;
    Ok(Parsed { end: Some(start.column()), ..plain(Call::SuppressUntil(policy.until(time, end))) })
}

/// What calls with policy have in common.
struct PolicyFields {
    id: String,
    principal: String,
    tenant: Option<String>,
    reason: String,
    make_scope: MakeScope,
    scope_string: String,
    correlation: Option<String>,
    critical_allowed: bool,
    authorised: bool,
    denial: String,
}

impl PolicyFields {
    fn read(fields: &mut Fields) -> Result<PolicyFields, Fault> {
        let (id, principal) = (fields.string("id", longest::ID)?, fields.string("principal", longest::PRINCIPAL)?);
        let (make_scope, scope_string) = scope(fields.need("scope")?)?;
        Ok(PolicyFields {
            id,
            principal,
            make_scope,
            scope_string,
            reason: fields.option("reason", longest::REASON)?.unwrap_or_default(),
            denial: fields.option("denial", longest::DENIAL)?.unwrap_or_default(),
            tenant: fields.option("tenant", longest::TENANT)?,
            correlation: fields.option("correlation", longest::CORRELATION)?,
            critical_allowed: fields.flag("critical-allowed")?,
            authorised: fields.flag("authorised")?,
        })
    }

    fn action(&self, action: Action, time: Time) -> PolicyAction<'_> {
        PolicyAction {
            action,
            tenant: self.tenant.as_deref(),
            reason: &self.reason,
            scope: (self.make_scope)(&self.scope_string),
            correlation: self.correlation.as_deref(),
            critical_allowed: self.critical_allowed,
            authorised: self.authorised,
            denial: &self.denial,
            ..PolicyAction::acknowledge(time, &self.id, &self.principal)
        }
    }

    fn until(&self, time: Time, end: Time) -> SuppressUntil<'_> {
        SuppressUntil::with_end(self.action(Action::Suppress, time), end)
    }
}

/// Makes a scope of its string.
type MakeScope = fn(&str) -> Scope<'_>;

/// How a scope is made of its string, and the string.
fn scope(value: Value) -> Result<(MakeScope, String), Fault> {
    let fault = Fault::new(value.column, "a scope is alarm(id), tenant(t) or global");
    let make: MakeScope = match &value.bytes[..] {
        b"alarm" => |id| Scope::Alarm(id),
        b"tenant" => |tenant| Scope::Tenant(tenant),
        b"global" if value.parts.is_none() => return Ok((|_| Scope::Global, String::new())),
        _ => return Err(fault),
    };
    let [string] = <[Value; 1]>::try_from(value.parts.unwrap_or_default()).map_err(|_| fault)?;
    Ok((make, string.string("a scope's string", longest::SCOPE)?))
}
