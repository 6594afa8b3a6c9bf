//! What an alarm is about, and how far an action reaches.
use core::fmt;

/// The affected object of an alarm: one of eight kinds.
///
/// ```
/// use alarm_register::Object;
/// let carrier = Object::Interface { nf: "carrier-7", name: "grip" };
/// assert_eq!(carrier.to_string(), "interface(carrier-7,grip)");
/// ```
#[derive(Clone, Copy, Debug, PartialEq, Eq, Hash)]
pub enum Object<'a> {
    /// 1: one unit of a kind.
    NfInstance {
        /// The kind of unit.
        kind: &'a str,
        /// Which one.
        instance: &'a str,
    },
    /// 2: a part of a unit.
    Interface {
        /// The unit.
        nf: &'a str,
        /// The part.
        name: &'a str,
    },
    /// 3: what a unit talks to.
    Peer {
        /// The unit.
        nf: &'a str,
        /// The other side.
        peer_id: &'a str,
    },
    /// 4: a unit's store, or one shard of it.
    SessionStore {
        /// The unit.
        nf: &'a str,
        /// The shard, if it is one.
        shard: Option<&'a str>,
    },
    /// 5: a slice.
    Slice {
        /// Its name.
        snssai: &'a str,
    },
    /// 6: a tenant.
    Tenant {
        /// Its name.
        tenant: &'a str,
    },
    /// 7: a certificate.
    Certificate {
        /// Its key.
        key_id: &'a str,
    },
    /// 8: a queue of a part of a unit.
    DataPlaneQueue {
        /// The unit.
        nf: &'a str,
        /// The part.
        interface: &'a str,
        /// The queue's number.
        queue: u16,
    },
}

impl<'a> Object<'a> {
    /// The number of the kind, 1 to 8.
    pub fn kind(&self) -> u8 {
        match self {
            Object::NfInstance { .. } => 1,
            Object::Interface { .. } => 2,
            Object::Peer { .. } => 3,
            Object::SessionStore { .. } => 4,
            Object::Slice { .. } => 5,
            Object::Tenant { .. } => 6,
            Object::Certificate { .. } => 7,
            Object::DataPlaneQueue { .. } => 8,
        }
    }

    /// The name of a kind, as `Display` writes it.
    pub fn kind_name(kind: u8) -> Option<&'static str> {
        let names = ["nf", "interface", "peer", "session-store", "slice", "tenant", "certificate", "queue"];
        names.get(usize::from(kind).checked_sub(1)?).copied()
    }

    /// The strings in order, the second if there is one, and the queue of kind 8.
    pub fn parts(&self) -> (&'a str, Option<&'a str>, Option<u16>) {
        match *self {
            Object::NfInstance { kind, instance } => (kind, Some(instance), None),
            Object::Interface { nf, name } => (nf, Some(name), None),
            Object::Peer { nf, peer_id } => (nf, Some(peer_id), None),
            Object::SessionStore { nf, shard } => (nf, shard, None),
            Object::Slice { snssai } => (snssai, None, None),
            Object::Tenant { tenant } => (tenant, None, None),
            Object::Certificate { key_id } => (key_id, None, None),
            Object::DataPlaneQueue { nf, interface, queue } => (nf, Some(interface), Some(queue)),
        }
    }

    /// The object of a kind with these parts, if the kind has just these.
    pub fn of_parts(kind: u8, first: &'a str, second: Option<&'a str>, queue: Option<u16>) -> Option<Object<'a>> {
        Some(match (kind, second, queue) {
            (1, Some(instance), None) => Object::NfInstance { kind: first, instance },
            (2, Some(name), None) => Object::Interface { nf: first, name },
            (3, Some(peer_id), None) => Object::Peer { nf: first, peer_id },
            (4, shard, None) => Object::SessionStore { nf: first, shard },
            (5, None, None) => Object::Slice { snssai: first },
            (6, None, None) => Object::Tenant { tenant: first },
            (7, None, None) => Object::Certificate { key_id: first },
            (8, Some(interface), Some(queue)) => Object::DataPlaneQueue { nf: first, interface, queue },
            _ => return None,
        })
    }
}

impl fmt::Display for Object<'_> {
    fn fmt(&self, f: &mut fmt::Formatter<'_>) -> fmt::Result {
        let (first, second, queue) = self.parts();
        write!(f, "{}({first}", Object::kind_name(self.kind()).unwrap_or("object"))?;
        if let Some(second) = second {
            write!(f, ",{second}")?;
        }
        if let Some(queue) = queue {
            write!(f, ",{queue}")?;
        }
        f.write_str(")")
    }
}

/// How far an action with policy reaches.
#[derive(Clone, Copy, Debug, PartialEq, Eq, Hash)]
pub enum Scope<'a> {
    /// 0: one alarm, by its id.
    Alarm(&'a str),
    /// 1: the alarms of a tenant.
    Tenant(&'a str),
    /// 2: all alarms.
    Global,
}

impl<'a> Scope<'a> {
    /// The number of the scope, 0 to 2.
    pub fn kind(&self) -> u8 {
        match self {
            Scope::Alarm(_) => 0,
            Scope::Tenant(_) => 1,
            Scope::Global => 2,
        }
    }

    /// The string that goes with it.
    pub fn string(&self) -> Option<&'a str> {
        match *self {
            Scope::Alarm(string) | Scope::Tenant(string) => Some(string),
            Scope::Global => None,
        }
    }
}

impl fmt::Display for Scope<'_> {
    fn fmt(&self, f: &mut fmt::Formatter<'_>) -> fmt::Result {
        match self {
            Scope::Alarm(id) => write!(f, "alarm({id})"),
            Scope::Tenant(tenant) => write!(f, "tenant({tenant})"),
            Scope::Global => f.write_str("global"),
        }
    }
}
