//! The alarm register of a cable car's station, over bytes that the caller lends.
//!
//! The register raises and clears alarms, lets people acknowledge and suppress them, also until a time, expires old ones, counts
//! how often each was raised, keeps a history and an audit trail, answers lists, counts and a summary, and makes the block of bytes
//! that the desk's lamp card reads. What it does is fixed byte for byte and proved; this crate puts types around the four functions
//! of its static library. It allocates nothing, has no dependency and needs `core` alone. A call needs 16 KiB of stack in the
//! library, beside what the thread itself takes; [`Register::perform`] puts the call's bytes ([`CALL_ROOM`]) on it too.
//!
//! Start with [`Register`]. Operations are [`Raise`], [`Clear`], [`PlainAction`], [`PolicyAction`], [`Expire`],
//! [`ListActive`], [`ListHistory`], [`CountActive`], [`Summarise`], [`TakeAudit`], [`SuppressUntil`] and [`Lift`]; each says what
//! it is answered by, and [`Operation::check`] tells before it is sent what a register would refuse in it. [`Balance`] adds up
//! answers, and says whether what was raised is active, cleared or expired. [`Panel`] is what a lamp card shows.
//!
//! ```
//! use alarm_register::{Limits, ListActive, Object, Raise, Register, Severity, Time};
//!
//! let limits = Limits { active: 16, history: 64, audit: 16 };
//! let mut bytes = vec![0; limits.register_length()];
//! let mut answer = vec![0; limits.answer_room()];
//! let mut register = Register::open(&mut bytes, limits)?;
//!
//! for tower in ["tower-3", "tower-4"] {
//!     let sheaves = Object::Interface { nf: tower, name: "sheaves" };
//!     let worn = Raise::new(Time(0), tower, "sheave.wear", Severity::Major, "other:ropeway.sheave-wear", sheaves);
//!     register.perform(&worn, &mut answer)?;
//! }
//! for alarm in register.perform(&ListActive { severity: None }, &mut answer)? {
//!     println!("{alarm}");
//! }
//! # Ok::<(), alarm_register::Refusal>(())
//! ```
#![no_std]
#![deny(unsafe_code, missing_docs)]

mod answer;
mod balance;
mod bytes;
mod call;
mod entry;
pub mod layout;
mod object;
mod operation;
mod panel;
mod policy;
mod record;
mod refusal;
mod register;
mod report;
mod setters;
mod time;
mod values;

pub use answer::{code_name, ActionAnswer, ClearAnswer, Head, RaiseAnswer};
pub use balance::Balance;
pub use bytes::{CallBytes, CALL_ROOM};
pub use call::{Clear, PlainAction, Raise};
pub use layout::{ANSWER_ROOM, HEAD_WIDTH, PANEL_WIDTH, RECORD_WIDTH, TEXT_CODE_POINTS};
pub use object::{Object, Scope};
pub use operation::{Call, CountActive, Expire, Lift, ListActive, ListHistory, Operation, Summarise, TakeAudit};
pub use panel::{panel_look, panel_write, Panel};
pub use policy::{PolicyAction, SuppressUntil};
pub use record::{Alarm, AuditEvent, Key};
pub use refusal::Refusal;
pub use register::{check_call, Limits, Register};
pub use report::{Alarms, AuditEvents, Count, Counts, Records, Summary};
pub use time::{Date, Time};
pub use values::{Action, Outcome, Readiness, Severity, State};
