//! The port behind the call protocol, by its safe front over the static library. Every lent entry holds 90 before a
//! call, and an entry that the call had no business with must hold it after. A refused call is made once more, as the
//! library exports it: it must be refused with the same number, and leave the numbers behind its references as they
//! were.

mod assembler;
mod lent;
mod numbers;
mod proxy;
mod sets;

/// Holds one proxy and one assembler.
#[derive(Default)]
pub struct Port {
    proxy: Option<drucenal::RtpsWriterProxy>,
    assembler: Option<assembler::Held>,
}

impl Port {
    pub fn new() -> Self {
        Self::default()
    }
}
