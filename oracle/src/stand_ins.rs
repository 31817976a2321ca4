//! What the four files lean on and the text given does not hold.

/// The width of a guest access.
#[derive(Clone, Copy, Debug, Eq, PartialEq)]
pub enum AccessWidth {
    Byte,
    Word,
    Dword,
    Qword,
}

impl AccessWidth {
    /// The width in bytes.
    pub const fn size(self) -> usize {
        match self {
            Self::Byte => 1,
            Self::Word => 2,
            Self::Dword => 4,
            Self::Qword => 8,
        }
    }
}

#[derive(Clone, Copy, Debug, Eq, PartialEq)]
pub(crate) enum GicV3SpiOwnership {
    AllGuestOwned,
    ExplicitClaims,
}

#[derive(Clone, Copy, Debug)]
pub(crate) enum RegisterRegion {
    Distributor,
}

pub(crate) type VgicResult<T = ()> = Result<T, VgicError>;

/// Refusals 1 and 2, and one shape for both 3 and 4, which differ in `detail`.
#[derive(Debug)]
#[allow(dead_code)]
pub(crate) enum VgicError {
    InvalidIntId {
        raw: u32,
    },
    ResourceConflict {
        resource: &'static str,
        detail: String,
    },
    InvalidAccess {
        region: RegisterRegion,
        operation: &'static str,
        offset: u64,
        width: AccessWidth,
        detail: String,
    },
}

/// The settings of a Distributor.
pub(crate) struct ControllerConfig {
    pub spi_count: u32,
    pub ownership: GicV3SpiOwnership,
    pub frame_size: u64,
    pub lpi: bool,
    pub its: bool,
    pub lpi_limit: u32,
    pub level_3: bool,
    pub range: bool,
}

impl ControllerConfig {
    /// Explicit claims, no ITS, flags clear.
    pub fn explicit(spi_count: u32, frame_size: u64) -> Self {
        Self {
            spi_count,
            ownership: GicV3SpiOwnership::ExplicitClaims,
            frame_size,
            lpi: false,
            its: false,
            lpi_limit: 0,
            level_3: false,
            range: false,
        }
    }

    /// The first INTID past the table.
    pub fn spi_limit(&self) -> u32 {
        32 + self.spi_count
    }

    pub fn spi_ownership(&self) -> GicV3SpiOwnership {
        self.ownership
    }

    pub fn distributor_size(&self) -> u64 {
        self.frame_size
    }

    pub fn exposes_guest_lpis(&self) -> bool {
        self.lpi
    }

    /// The Distributor asks only whether there is an ITS.
    pub fn its(&self) -> Option<()> {
        self.its.then_some(())
    }

    pub fn lpi_limit(&self) -> u32 {
        self.lpi_limit
    }

    pub fn affinity_level_3(&self) -> bool {
        self.level_3
    }

    pub fn range_selector(&self) -> bool {
        self.range
    }
}
