//! Images built from events, with a right header.

/// One event as it is recorded.
#[derive(Clone, Copy, Debug)]
pub struct Event {
    pub kind: u8,
    pub thread: u8,
    pub lock: u16,
    pub site: u16,
}

pub fn acquire(thread: u8, lock: u16) -> Event {
    Event { kind: 1, thread, lock, site: 0 }
}

pub fn release(thread: u8, lock: u16) -> Event {
    Event { kind: 2, thread, lock, site: 0 }
}

pub fn build(threads: u16, locks: u16, notes: &[u8], events: &[Event]) -> Vec<u8> {
    let offset = 20 + notes.len() as u32;
    let whole = offset + 6 * events.len() as u32;
    let mut bytes = b"LKT1".to_vec();
    bytes.extend(threads.to_le_bytes());
    bytes.extend(locks.to_le_bytes());
    for field in [events.len() as u32, offset, whole] {
        bytes.extend(field.to_le_bytes());
    }
    bytes.extend(notes);
    for e in events {
        bytes.extend([e.kind, e.thread]);
        bytes.extend(e.lock.to_le_bytes());
        bytes.extend(e.site.to_le_bytes());
    }
    bytes
}
