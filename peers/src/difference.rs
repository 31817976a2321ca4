//! The kinds of difference, and the table from a register and a kind to the
//! entry of docs/DIFFERENCES.md that explains it.

use std::fmt::{self, Display, Formatter};

#[derive(Clone, Copy, Debug, Eq, Ord, PartialEq, PartialOrd)]
pub enum Field {
    Enabled,
    Pending,
    Active,
    Trigger,
    Priority,
    Route,
}

/// How the two sides differ. "Here" is ours.
#[derive(Clone, Copy, Debug, Eq, Ord, PartialEq, PartialOrd)]
pub enum Kind {
    /// Refused 3 here for the offset; the peer does it in aligned pieces.
    Misaligned,
    /// Refused 3 here; the peer's frame has ended too, but it answers.
    PastFrame,
    /// A width that the bank is not made for: refused 4 here; the peer reads 0
    /// and writes nothing.
    Width,
    /// Refused 4 here; the peer reads or writes this half of the register.
    Half,
    /// Word or Qword, done here; the peer reads 0 and writes nothing.
    WidthHere,
    /// Refused with this number here.
    Refused(u8),
    /// This bit is read as 1 on one side only.
    Bit { bit: u32, here: bool },
    /// `GICD_TYPER.ITLinesNumber`.
    Lines { here: u64, peer: u64 },
    /// An SPI's bit in IGROUPR is 1 on one side only.
    Group { here: bool },
    /// Anything else of a value that is read.
    Value,
    /// Pending on one side only; trigger, line and active as before the call.
    Pending {
        here: bool,
        edge: bool,
        line: bool,
        active: bool,
    },
    /// The peer keeps bit 31 of a route.
    AnyCore,
    /// The peer keeps other bits of a route that name no core.
    Reserved,
    /// The priority that nobody has written.
    Fresh { here: u8, peer: u8 },
    /// This field is not the same after the call.
    After(Field),
}

impl Display for Kind {
    fn fmt(&self, out: &mut Formatter) -> fmt::Result {
        let side = |here: bool| if here { "here" } else { "in QEMU" };
        match *self {
            Self::Misaligned => write!(out, "misaligned: refused 3 here"),
            Self::PastFrame => write!(out, "past the frame: refused 3 here"),
            Self::Width => write!(out, "wrong width: refused 4 here, 0 in QEMU"),
            Self::Half => write!(out, "Dword: refused 4 here, a half in QEMU"),
            Self::WidthHere => write!(out, "Word, Qword: done here, 0 in QEMU"),
            Self::Refused(number) => write!(out, "refused {number} here"),
            Self::Bit { bit, here } => write!(out, "bit {bit} is 1 {} only", side(here)),
            Self::Lines { here, peer } => write!(out, "lines {here} here, {peer} in QEMU"),
            Self::Group { here } => write!(out, "an SPI's bit is 1 {} only", side(here)),
            Self::Value => write!(out, "another value"),
            Self::Pending {
                here,
                edge,
                line,
                active,
            } => {
                let trigger = if edge { "edge" } else { "level" };
                let line = if line { "high" } else { "low" };
                let active = if active { ", active" } else { "" };
                let side = side(here);
                write!(out, "pending {side} only ({trigger}, line {line}{active})")
            }
            Self::AnyCore => write!(out, "bit 31 is kept in QEMU only"),
            Self::Reserved => write!(out, "bits that name no core are kept in QEMU only"),
            Self::Fresh { here, peer } => write!(out, "priority {here:#x} here, {peer} in QEMU"),
            Self::After(field) => write!(out, "{field:?} is not the same after it"),
        }
    }
}

pub fn word(width: u64) -> &'static str {
    match width {
        1 => "Byte",
        2 => "Word",
        4 => "Dword",
        _ => "Qword",
    }
}

/// What stands for a register where there is none: creation, a sequence's end,
/// the two line calls, and the offsets that no bank holds.
pub const CREATION: &str = "creation";
pub const END: &str = "at the end";
pub const RAISED: &str = "line high";
pub const LOWERED: &str = "line low";
pub const ELSEWHERE: &str = "elsewhere";

const LATCH: &str = "Line and latch share one pending bit";
const EDGE: &str = "An edge line pends without rising";
const MORE: &str = "Four more of line and latch";
const BIT_31: &str = "`GICD_IROUTER<n>` drops bit 31, though bit 25 of `GICD_TYPER` is 0";
const GROUPS: &str = "`GICD_IGROUPR<n>` shows ownership";
const DS: &str = "`GICD_CTLR.DS` reads 0";
const GROUP_0: &str = "No enable for group 0";
const PRIORITY_WIDTHS: &str = "`GICD_IPRIORITYR<n>` takes Word and Qword";
const ROUTE_DWORD: &str = "`GICD_IROUTER<n>` refuses Dword";
const WIDTH: &str = "A wrong width is refused";
const FRAME: &str = "The frame has any size";
const MISALIGNED: &str = "A misaligned access is refused";
const PRIORITY: &str = "priority at creation";
const ROUTE_BITS: &str = "`GICD_IROUTER<n>` bits 63..40, 30..24";
const LINES: &str = "`GICD_TYPER.ITLinesNumber`";

/// The table: the title of the entry that explains a difference.
#[rustfmt::skip]
pub fn entry(register: &str, kind: Kind) -> Option<&'static str> {
    use Kind::{
        AnyCore, Bit, Fresh, Group, Half, Lines, Misaligned, PastFrame, Pending, Reserved, Width,
        WidthHere,
    };
    Some(match (register, kind) {
        (CREATION, Fresh { here: 0x80, peer: 0 }) => PRIORITY,
        ("CTLR", Bit { bit: 6, here: false }) => DS,
        ("CTLR", Bit { bit: 0, here: false }) => GROUP_0,
        ("TYPER", Bit { bit: 25, here: false }) => BIT_31,
        ("TYPER", Lines { here, peer }) if peer + 1 == here => LINES,
        ("IGROUPR", Group { here: true }) => GROUPS,
        ("IPRIORITYR", WidthHere) => PRIORITY_WIDTHS,
        ("IROUTER", Half) => ROUTE_DWORD,
        ("IROUTER", AnyCore) => BIT_31,
        ("IROUTER", Reserved) => ROUTE_BITS,
        (_, Width) => WIDTH,
        (_, Misaligned) => MISALIGNED,
        (_, PastFrame) => FRAME,
        ("ICPENDR", Pending { here: false, edge: false, line: true, .. }) => LATCH,
        (LOWERED, Pending { here: false, edge: false, active: false, .. }) => LATCH,
        (LOWERED, Pending { here: true, edge: false, line: true, active: true }) => MORE,
        (RAISED, Pending { here: true, edge: true, line: true, .. }) => EDGE,
        ("ISENABLER", Pending { here: true, edge: true, line: true, .. }) => MORE,
        ("ICFGR", Pending { here: false, edge: true, line: true, .. }) => MORE,
        ("ICFGR", Pending { here: true, edge: false, line: true, .. }) => MORE,
        _ => return None,
    })
}

/// Whether the page has an entry with this title: a heading, after its number,
/// or the first cell of a table's row.
pub fn stands(page: &str, title: &str) -> bool {
    page.lines().any(|line| {
        let heading = line
            .strip_prefix("### ")
            .and_then(|rest| rest.split_once(". "));
        let row = line
            .strip_prefix("| ")
            .and_then(|rest| rest.split_once(" | "));
        heading.is_some_and(|(_, name)| name == title) || row.is_some_and(|(name, _)| name == title)
    })
}

#[cfg(test)]
mod tests {
    use super::*;

    const ENTRIES: [&str; 15] = [
        LATCH,
        EDGE,
        MORE,
        BIT_31,
        GROUPS,
        DS,
        GROUP_0,
        PRIORITY_WIDTHS,
        ROUTE_DWORD,
        WIDTH,
        FRAME,
        MISALIGNED,
        PRIORITY,
        ROUTE_BITS,
        LINES,
    ];

    #[test]
    fn every_entry_that_is_cited_stands_on_the_page() {
        let page = std::fs::read_to_string(crate::PAGE).unwrap();
        for title in ENTRIES {
            assert!(stands(&page, title), "no entry {title:?}");
        }
    }

    #[test]
    fn a_title_is_a_whole_heading_or_a_whole_first_cell() {
        let page = "### 8. `GICD_CTLR.DS` reads 0\ntext 9\n| priority | 0x80 |\n";
        assert!(stands(page, "`GICD_CTLR.DS` reads 0"));
        assert!(stands(page, "priority"));
        for other in ["DS in CTLR", "text 9", "0x80", ""] {
            assert!(!stands(page, other), "{other:?}");
        }
    }

    #[test]
    fn a_difference_is_explained_one_way_round_only() {
        let banks = oracle::registers::BANKS.iter().map(|bank| bank.name);
        let names = banks.chain([CREATION, END, RAISED, LOWERED, ELSEWHERE]);
        for name in names {
            let once = |kind: fn(u32, bool) -> Kind, case: u32| {
                let both = [true, false].map(|here| entry(name, kind(case, here)).is_some());
                assert_ne!(both, [true, true], "{name} {}", kind(case, true));
            };
            for bit in 0..64 {
                once(|bit, here| Kind::Bit { bit, here }, bit);
            }
            once(|_, here| Kind::Group { here }, 0);
            for case in 0..8 {
                let pending = |case: u32, here| Kind::Pending {
                    here,
                    edge: case & 1 != 0,
                    line: case & 2 != 0,
                    active: case & 4 != 0,
                };
                once(pending, case);
            }
        }
    }
}
