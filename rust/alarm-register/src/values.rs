//! Bytes with few values, each by its name.
use core::fmt;

/// An enum of named byte values, with its byte, its name for people, and both ways back.
macro_rules! named_bytes {
    ($(#[$about:meta])* $name:ident { $($(#[$what:meta])* $value:ident = $byte:literal, $word:literal;)* }) => {
        $(#[$about])*
        #[derive(Clone, Copy, Debug, PartialEq, Eq, Hash, PartialOrd, Ord)]
        pub enum $name { $($(#[$what])* $value = $byte),* }

        impl $name {
            /// All values, by rising byte.
            pub const ALL: &'static [$name] = &[$($name::$value),*];

            /// The byte that stands for the value in calls, records and answers.
            pub fn byte(self) -> u8 {
                self as u8
            }

            /// The value of a byte.
            pub fn from_byte(byte: u8) -> Option<$name> {
                $name::ALL.iter().copied().find(|value| value.byte() == byte)
            }

            /// The value's name.
            pub fn name(self) -> &'static str {
                match self { $($name::$value => $word),* }
            }

            /// The value of a name.
            pub fn from_name(name: &str) -> Option<$name> {
                $name::ALL.iter().copied().find(|value| value.name() == name)
            }
        }

        impl fmt::Display for $name {
            fn fmt(&self, f: &mut fmt::Formatter<'_>) -> fmt::Result {
                f.pad(self.name())
            }
        }
    };
}

named_bytes! {
    /// How bad an alarm is; later is worse.
    Severity {
        /// No longer a fault; an alarm gets it when it is cleared, and may be raised with it.
        Cleared = 0, "cleared";
        /// Of unknown effect.
        Indeterminate = 1, "indeterminate";
        /// Near a fault.
        Warning = 2, "warning";
        /// Impaired a little.
        Minor = 3, "minor";
        /// Impaired badly: readiness is degraded, unless the alarm is suppressed.
        Major = 4, "major";
        /// Out of service: not ready, unless the alarm is suppressed.
        Critical = 5, "critical";
    }
}

named_bytes! {
    /// Where an alarm stands in its life. The first four are active; the last two stand in history only.
    State {
        /// New.
        Raised = 0, "raised";
        /// Raised again while active, or lifted when the end of its suppression had come.
        Updated = 1, "updated";
        /// Taken note of by a person.
        Acknowledged = 2, "acknowledged";
        /// Put aside by a person, with an end or without; a summary's worst severity and readiness leave it aside too.
        Suppressed = 3, "suppressed";
        /// Ended by a clear.
        Cleared = 4, "cleared";
        /// Ended by its age.
        Expired = 5, "expired";
    }
}

named_bytes! {
    /// What a person does with an alarm.
    Action {
        /// Takes note of it.
        Acknowledge = 0, "acknowledge";
        /// Puts it aside.
        Suppress = 1, "suppress";
    }
}

named_bytes! {
    /// How an attempt with policy ended.
    Outcome {
        /// It was allowed.
        Authorised = 0, "authorised";
        /// It was not.
        Denied = 1, "denied";
    }
}

named_bytes! {
    /// What the worst of the active alarms that are not suppressed means for the station.
    Readiness {
        /// Nothing.
        NoImpact = 0, "no impact";
        /// It runs with a serious impairment.
        Degraded = 1, "degraded";
        /// It must not run.
        NotReady = 2, "not ready";
    }
}
