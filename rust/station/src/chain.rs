//! The chains of a register, as its bytes have them.
use alarm_register::RECORD_WIDTH;

/// A number of a register; 0 where the bytes end before it.
pub fn number(register: &[u8], at: usize) -> usize {
    register.get(at..at + 4).and_then(|bytes| bytes.try_into().ok()).map_or(0, |bytes| u32::from_be_bytes(bytes) as usize)
}

/// How many records lie on the chain with this head.
pub fn length(register: &[u8], head: usize) -> usize {
    number(register, head + 4)
}

/// Where the records on the chain with this head begin. The register is sound.
pub fn records(register: &[u8], head: usize) -> impl Iterator<Item = usize> + '_ {
    let led_to = |link: usize| number(register, link) * RECORD_WIDTH;
    std::iter::successors(Some(led_to(head)), move |record| Some(led_to(*record))).take(length(register, head))
}
