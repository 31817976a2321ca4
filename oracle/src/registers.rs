//! The register banks, a row each. They aim accesses and count them; what an
//! access answers is for the machine to say.

pub struct Bank {
    pub name: &'static str,
    pub start: u64,
    /// The first offset past the bank.
    pub end: u64,
    /// Offsets inside that are no multiple of this belong to no register.
    pub step: u64,
    /// The widths the bank is made for, in bytes.
    pub widths: &'static [u64],
    /// How many bits an INTID has; 0 where the bank is not by INTID.
    pub bits: u64,
}

pub const WIDTHS: [u64; 4] = [1, 2, 4, 8];

pub const CTLR: Bank = bank("CTLR", 0x0, 0x4, 4, &[4], 0);
pub const TYPER: Bank = bank("TYPER", 0x4, 0x8, 4, &[4], 0);
pub const IPRIORITYR: Bank = bank("IPRIORITYR", 0x400, 0x7fc, 1, &WIDTHS, 8);
pub const ICFGR: Bank = bank("ICFGR", 0xc00, 0xd00, 4, &[4], 2);

/// Every bank, by offset.
pub const BANKS: [Bank; 15] = [
    CTLR,
    TYPER,
    bank("IIDR", 0x8, 0xc, 4, &[4], 0),
    bank("IGROUPR", 0x80, 0x100, 4, &[4], 1),
    bank("ISENABLER", 0x100, 0x180, 4, &[4], 1),
    bank("ICENABLER", 0x180, 0x200, 4, &[4], 1),
    bank("ISPENDR", 0x200, 0x280, 4, &[4], 1),
    bank("ICPENDR", 0x280, 0x300, 4, &[4], 1),
    bank("ISACTIVER", 0x300, 0x380, 4, &[4], 1),
    bank("ICACTIVER", 0x380, 0x400, 4, &[4], 1),
    IPRIORITYR,
    bank("ITARGETSR", 0x800, 0xc00, 1, &WIDTHS, 8),
    ICFGR,
    bank("IROUTER", 0x6000, 0x7fe0, 1, &[8], 64),
    bank("component", 0xffd0, 0x1_0000, 4, &[4], 0),
];

const fn bank(
    name: &'static str,
    start: u64,
    end: u64,
    step: u64,
    widths: &'static [u64],
    bits: u64,
) -> Bank {
    Bank {
        name,
        start,
        end,
        step,
        widths,
        bits,
    }
}

impl Bank {
    pub fn holds(&self, offset: u64) -> bool {
        (self.start..self.end).contains(&offset) && offset.is_multiple_of(self.step)
    }

    /// The last offset at which the bank can be accessed.
    pub fn last(&self) -> u64 {
        self.end - self.widths[0]
    }

    /// The offset of the byte where an INTID's bits begin.
    pub fn offset_of(&self, intid: u64) -> u64 {
        self.start + intid * self.bits / 8
    }
}
