//! Operations 5, 6 and 13: actions under policy, each as a value that is built up and written as a call.
use crate::bytes::{CallBytes, Fields};
use crate::layout::longest;
use crate::object::Scope;
use crate::setters::setters;
use crate::time::Time;
use crate::values::Action;

/// The methods that give both actions what policy and people say.
macro_rules! policy_setters {
    () => {
        setters! {
            /// For a tenant.
            tenant: &'a str => Some(tenant);
            /// For a reason.
            reason: &'a str => reason;
            /// Within a scope.
            scope: Scope<'a> => scope;
            /// As a part of something.
            correlation: &'a str => Some(correlation);
            /// What policy says on critical alarms.
            critical_allowed: bool => critical_allowed;
            /// What the authoriser said.
            authorised: bool => authorised;
            /// What is answered where the authoriser said no.
            denial: &'a str => denial;
        }
    };
}

/// 5 and 6: acknowledges or suppresses an alarm by its id under policy; every attempt on an active alarm leaves an audit event.
#[derive(Clone, Copy, Debug, PartialEq, Eq)]
pub struct PolicyAction<'a> {
    /// Which of the two.
    pub action: Action,
    /// When.
    pub time: Time,
    /// The alarm's id.
    pub id: &'a str,
    /// Who acts.
    pub principal: &'a str,
    /// For which tenant, if any.
    pub tenant: Option<&'a str>,
    /// Why.
    pub reason: &'a str,
    /// How far the permission reaches.
    pub scope: Scope<'a>,
    /// What the action belongs to, if anything.
    pub correlation: Option<&'a str>,
    /// Whether policy lets this principal suppress critical alarms and those of the nine guarded causes.
    pub critical_allowed: bool,
    /// Whether the cabinet's own authoriser allows it.
    pub authorised: bool,
    /// What is answered where it does not.
    pub denial: &'a str,
}

impl<'a> PolicyAction<'a> {
    /// An acknowledgement that nothing allows yet, with the alarm itself as its scope.
    pub fn acknowledge(time: Time, id: &'a str, principal: &'a str) -> Self {
        let (tenant, reason, scope, correlation, denial) = (None, "", Scope::Alarm(id), None, "");
        let (action, critical_allowed, authorised) = (Action::Acknowledge, false, false);
        PolicyAction { action, time, id, principal, tenant, reason, scope, correlation, critical_allowed, authorised, denial }
    }

    /// A suppression that nothing allows yet, with the alarm itself as its scope.
    pub fn suppress(time: Time, id: &'a str, principal: &'a str) -> Self {
        PolicyAction { action: Action::Suppress, ..PolicyAction::acknowledge(time, id, principal) }
    }

    policy_setters! {}

    pub(crate) fn write(&self) -> CallBytes {
        let mut call = CallBytes::new(5 + self.action.byte());
        call.time(self.time);
        self.write_fields(&mut call);
        call
    }

    pub(crate) fn read(action: Action, fields: &mut Fields<'a>) -> Option<Self> {
        let time = fields.time()?;
        PolicyAction::read_fields(action, time, fields)
    }

    /// Writes what stands behind a call's times.
    fn write_fields(&self, call: &mut CallBytes) {
        call.string(self.id.as_bytes(), longest::ID);
        call.string(self.principal.as_bytes(), longest::PRINCIPAL);
        call.option(self.tenant.map(str::as_bytes), longest::TENANT);
        call.string(self.reason.as_bytes(), longest::REASON);
        call.scope(&self.scope);
        call.option(self.correlation.map(str::as_bytes), longest::CORRELATION);
        call.flag(self.critical_allowed);
        call.flag(self.authorised);
        call.string(self.denial.as_bytes(), longest::DENIAL);
    }

    /// Reads what stands behind a call's times.
    fn read_fields(action: Action, time: Time, fields: &mut Fields<'a>) -> Option<Self> {
        Some(PolicyAction {
            action,
            time,
            id: fields.string(longest::ID)?,
            principal: fields.string(longest::PRINCIPAL)?,
            tenant: fields.option(longest::TENANT)?,
            reason: fields.string(longest::REASON)?,
            scope: fields.scope()?,
            correlation: fields.option(longest::CORRELATION)?,
            critical_allowed: fields.flag()?,
            authorised: fields.flag()?,
            denial: fields.string(longest::DENIAL)?,
        })
    }
}

/// 13: suppresses an alarm as [`PolicyAction::suppress`] does, with when the job ends, which the alarm's record keeps
/// ([`Alarm::end`](crate::Alarm::end)).
///
/// Nothing happens at the end by itself: the alarm stays suppressed until a [`Lift`](crate::Lift) comes that reaches up to the end.
/// Raises of the alarm keep the end; an acknowledgement, another suppression, a clear and an expiry remove it.
///
/// ```
/// use alarm_register::{ActionAnswer, Lift, Limits, Object, Operation, Raise, Refusal, Register, Severity, SuppressUntil, Time};
///
/// let limits = Limits { active: 4, history: 8, audit: 2 };
/// let mut bytes = vec![0; limits.register_length()];
/// let mut answer = vec![0; limits.answer_room()];
/// let mut register = Register::open(&mut bytes, limits)?;
///
/// let brake = Object::Interface { nf: "tower-9", name: "brake" };
/// register.perform(&Raise::new(Time(10), "A-1", "line.brake", Severity::Minor, "other:ropeway.brake-open", brake), &mut answer)?;
/// let job = SuppressUntil::new(Time(20), Time(90), "A-1", "rope-crew").reason("brake pads").authorised(true);
/// let ActionAnswer::Suppressed(alarm) = register.perform(&job, &mut answer)? else { panic!("it is active and allowed") };
/// assert_eq!(alarm.end, Some(Time(90)));
///
/// // at the next rounds
/// assert_eq!(register.perform(&Lift { up_to: Time(89) }, &mut answer)?, 0);
/// assert_eq!(register.perform(&Lift { up_to: Time(90) }, &mut answer)?, 1);
///
/// // a job ends later than it is begun
/// assert_eq!(SuppressUntil { end: Time(20), ..job }.check(), Err(Refusal::End));
/// # Ok::<(), alarm_register::Refusal>(())
/// ```
#[derive(Clone, Copy, Debug, PartialEq, Eq)]
pub struct SuppressUntil<'a> {
    /// When.
    pub time: Time,
    /// When the suppression ends: later than `time`.
    pub end: Time,
    /// The alarm's id.
    pub id: &'a str,
    /// Who acts.
    pub principal: &'a str,
    /// For which tenant, if any.
    pub tenant: Option<&'a str>,
    /// Why.
    pub reason: &'a str,
    /// How far the permission reaches.
    pub scope: Scope<'a>,
    /// What the action belongs to, if anything.
    pub correlation: Option<&'a str>,
    /// Whether policy lets this principal suppress critical alarms and those of the nine guarded causes.
    pub critical_allowed: bool,
    /// Whether the cabinet's own authoriser allows it.
    pub authorised: bool,
    /// What is answered where it does not.
    pub denial: &'a str,
}

impl<'a> SuppressUntil<'a> {
    /// A suppression that nothing allows yet, with the alarm itself as its scope.
    pub fn new(time: Time, end: Time, id: &'a str, principal: &'a str) -> Self {
        SuppressUntil::with_end(PolicyAction::suppress(time, id, principal), end)
    }

    policy_setters! {}

    /// A suppression with an end: operation 13 in the place of 6, whichever action was named.
    pub fn with_end(suppression: PolicyAction<'a>, end: Time) -> Self {
        let PolicyAction { time, id, principal, tenant, reason, scope, correlation, .. } = suppression;
        let PolicyAction { critical_allowed, authorised, denial, .. } = suppression;
        SuppressUntil { time, end, id, principal, tenant, reason, scope, correlation, critical_allowed, authorised, denial }
    }

    /// The same suppression without its end: operation 6.
    pub fn without_end(&self) -> PolicyAction<'a> {
        let SuppressUntil { time, end: _, id, principal, tenant, reason, scope, correlation, .. } = *self;
        let SuppressUntil { critical_allowed, authorised, denial, .. } = *self;
        let action = Action::Suppress;
        PolicyAction { action, time, id, principal, tenant, reason, scope, correlation, critical_allowed, authorised, denial }
    }

    pub(crate) fn write(&self) -> CallBytes {
        let mut call = CallBytes::new(13);
        call.time(self.time);
        call.time(self.end);
        self.without_end().write_fields(&mut call);
        call
    }

    pub(crate) fn read(fields: &mut Fields<'a>) -> Option<Self> {
        let (time, end) = (fields.time()?, fields.time()?);
        PolicyAction::read_fields(Action::Suppress, time, fields).map(|suppression| SuppressUntil::with_end(suppression, end))
    }
}
