//! The panel block: eight bytes that the desk's lamp card reads.
use crate::entry;
use crate::layout::{panel, PANEL_WIDTH};
use crate::refusal::Refusal;
use crate::values::Severity;
use core::fmt;

/// A panel block that the host keeps: what a lamp card shows of a register.
///
/// It has a flag for each severity, set if an active alarm of it is raised or updated; a mask with the same bits; and how many
/// alarms are active. A severity that is flagged and that the mask lets through is *waiting*. Acknowledged and suppressed alarms
/// set no flag. A look makes the block anew from the register, which is only read; the mask alone is the block's own and stays.
/// No text can light a lamp: sound registers that differ only in texts and details give equal blocks from equal blocks.
///
/// A block that lives in a card's memory is lent to [`panel_look`] and [`panel_write`]; [`Panel::from_bytes`] reads it.
///
/// ```
/// use alarm_register::{Limits, Object, Panel, PlainAction, Raise, Register, Severity, Time, ANSWER_ROOM};
///
/// let limits = Limits { active: 4, history: 8, audit: 2 };
/// let (mut bytes, mut answer) = (vec![0; limits.register_length()], [0; ANSWER_ROOM]);
/// let mut register = Register::open(&mut bytes, limits)?;
/// let drive = Object::Interface { nf: "drive", name: "converter" };
/// let trip = Raise::new(Time(0), "A1", "drive.trip", Severity::Critical, "other:ropeway.drive-trip", drive);
/// register.perform(&trip, &mut answer)?;
///
/// let mut panel = Panel::new();
/// panel.look(&register)?;
/// assert_eq!((panel.waiting(), panel.is_lit(), panel.active()), (Some(Severity::Critical), true, 1));
///
/// // the operator lets major alarms through alone: the trip is still flagged, and no lamp is lit
/// panel.set_mask(&register, Panel::bit(Severity::Major))?;
/// assert!(panel.is_flagged(Severity::Critical) && !panel.is_lit());
///
/// register.perform(&PlainAction::acknowledge(Time(1), "A1").authorised(true), &mut answer)?;
/// panel.look(&register)?;
/// assert_eq!(panel.as_bytes(), &[0, 0x10, 0, 0, 0, 0, 0, 1]);
/// # Ok::<(), alarm_register::Refusal>(())
/// ```
#[derive(Clone, Copy, PartialEq, Eq, Hash)]
pub struct Panel {
    bytes: [u8; PANEL_WIDTH],
}

impl Panel {
    /// The mask that lets every severity through.
    pub const MASK_ALL: u8 = 0x3f;

    /// A block before its first look: its mask lets every severity through, and all else is 0.
    pub fn new() -> Panel {
        let mut bytes = [0; PANEL_WIDTH];
        bytes[panel::MASK] = Panel::MASK_ALL;
        Panel { bytes }
    }

    /// The block that these bytes are, whatever they hold: they are of any meaning only after a look.
    pub fn from_bytes(bytes: [u8; PANEL_WIDTH]) -> Panel {
        Panel { bytes }
    }

    /// The bytes, for the card.
    pub fn as_bytes(&self) -> &[u8; PANEL_WIDTH] {
        &self.bytes
    }

    /// Makes the block anew from a register, a [`Register`](crate::Register) or its bytes. Of the mask bits 6 and 7 become 0.
    ///
    /// # Errors
    /// 22 for bytes that are not a sound register; the block is then as it was.
    pub fn look(&mut self, register: impl AsRef<[u8]>) -> Result<(), Refusal> {
        panel_look(register.as_ref(), &mut self.bytes)
    }

    /// Writes a byte as the card asks for it, and makes the block anew: at 1 the mask, as [`Panel::set_mask`] does; at any other
    /// place, also behind the block, the value is dropped, and this is a look.
    ///
    /// # Errors
    /// 22 for bytes that are not a sound register; the block is then as it was.
    pub fn write(&mut self, register: impl AsRef<[u8]>, at: u32, value: u8) -> Result<(), Refusal> {
        panel_write(register.as_ref(), &mut self.bytes, at, value)
    }

    /// Sets which severities are let through, bits as [`Panel::bit`] has them, and makes the block anew. Bits 6 and 7 become 0.
    ///
    /// # Errors
    /// 22 for bytes that are not a sound register; the block is then as it was.
    pub fn set_mask(&mut self, register: impl AsRef<[u8]>, mask: u8) -> Result<(), Refusal> {
        self.write(register, panel::MASK as u32, mask)
    }

    /// The bit of a severity, in flags and mask.
    pub fn bit(severity: Severity) -> u8 {
        1 << severity.byte()
    }

    /// The flags: a bit for each severity of which an active alarm is raised or updated, whatever the mask.
    pub fn flags(&self) -> u8 {
        self.bytes[panel::FLAGS]
    }

    /// Whether an active alarm of a severity is raised or updated.
    pub fn is_flagged(&self, severity: Severity) -> bool {
        self.flags() & Panel::bit(severity) != 0
    }

    /// The mask: a bit for each severity that is let through.
    pub fn mask(&self) -> u8 {
        self.bytes[panel::MASK]
    }

    /// Whether the mask lets a severity through.
    pub fn lets_through(&self, severity: Severity) -> bool {
        self.mask() & Panel::bit(severity) != 0
    }

    /// Whether a severity is waiting: flagged, and let through.
    pub fn is_waiting(&self, severity: Severity) -> bool {
        self.is_flagged(severity) && self.lets_through(severity)
    }

    /// The highest severity that is waiting.
    pub fn waiting(&self) -> Option<Severity> {
        self.bytes[panel::WAITING].checked_sub(1).and_then(Severity::from_byte)
    }

    /// Whether any severity is waiting.
    pub fn is_lit(&self) -> bool {
        self.bytes[panel::LIT] != 0
    }

    /// How many alarms are active, acknowledged and suppressed ones among them.
    pub fn active(&self) -> u32 {
        u32::from_be_bytes([0, 1, 2, 3].map(|place| self.bytes[panel::ACTIVE + place]))
    }
}

impl Default for Panel {
    fn default() -> Panel {
        Panel::new()
    }
}

impl fmt::Display for Panel {
    /// The bytes in hexadecimal digits.
    fn fmt(&self, f: &mut fmt::Formatter<'_>) -> fmt::Result {
        let mut between = "";
        for byte in self.bytes {
            write!(f, "{between}{byte:02x}")?;
            between = " ";
        }
        Ok(())
    }
}

impl fmt::Debug for Panel {
    fn fmt(&self, f: &mut fmt::Formatter<'_>) -> fmt::Result {
        write!(f, "Panel({self})")
    }
}

/// Makes a lent panel block anew from the bytes of a register, as [`Panel::look`] does.
///
/// # Errors
/// 22 for bytes that are not a sound register, then 30 for a block of another length than [`PANEL_WIDTH`]; the block is then as it
/// was.
///
/// ```
/// use alarm_register::{panel_look, Limits, Refusal, Register};
///
/// let limits = Limits { active: 1, history: 1, audit: 1 };
/// let mut register = vec![0; limits.register_length()];
/// Register::open(&mut register, limits)?;
/// let mut card = [0xff; 9];
/// assert_eq!(panel_look(&register, &mut card), Err(Refusal::AnswerLength));
/// panel_look(&register, &mut card[..8])?;
/// assert_eq!(card, [0, 0x3f, 0, 0, 0, 0, 0, 0, 0xff]);
/// # Ok::<(), Refusal>(())
/// ```
pub fn panel_look(register: &[u8], block: &mut [u8]) -> Result<(), Refusal> {
    entry::panel_look(register, block)
}

/// Writes a byte of a lent panel block, and makes the block anew from the bytes of a register, as [`Panel::write`] does.
///
/// # Errors
/// 22 for bytes that are not a sound register, then 30 for a block of another length than [`PANEL_WIDTH`]; the block is then as it
/// was.
pub fn panel_write(register: &[u8], block: &mut [u8], at: u32, value: u8) -> Result<(), Refusal> {
    entry::panel_write(register, block, at, value)
}
