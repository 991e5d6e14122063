//! Deliberately broken variants of the model, for the check that the check can fail.
//! `Variant::Right` is the model; every other one leaves out or twists one rule.

#[derive(Clone, Copy, PartialEq, Eq, Debug)]
pub enum Variant {
    /// Document 01 as written.
    Right,
    /// 16 looks at the block of the first byte only.
    FirstByteOnly,
    /// 13 asks for the first word of a descriptor only, and so does soundness.
    OverlapFirstWordOnly,
    /// 10 on HDP by the book's empty queue only, HDP is not read.
    BusyByBookOnly,
    /// No 10 on a teardown while CP reads 0xFFFFFFFC.
    NoStaleCp,
    /// No 8 on HDP.
    NoTeardownOnHdp,
    /// Step 6 (both sides) reads word 0 again in place of the latched next.
    StepSixReadsAgain,
    /// The release takes descriptors without looking at OWNER.
    ReleaseIgnoresOwner,
    /// A kind change to 0 is allowed.
    KindZeroAllowed,
    /// 21 is never given.
    NoBlockInReception,
}

impl Variant {
    pub const BROKEN: [Variant; 9] = [
        Variant::FirstByteOnly,
        Variant::OverlapFirstWordOnly,
        Variant::BusyByBookOnly,
        Variant::NoStaleCp,
        Variant::NoTeardownOnHdp,
        Variant::StepSixReadsAgain,
        Variant::ReleaseIgnoresOwner,
        Variant::KindZeroAllowed,
        Variant::NoBlockInReception,
    ];

    pub fn name(self) -> &'static str {
        match self {
            Variant::Right => "right",
            Variant::FirstByteOnly => "first-byte-only",
            Variant::OverlapFirstWordOnly => "overlap-first-word-only",
            Variant::BusyByBookOnly => "busy-by-book-only",
            Variant::NoStaleCp => "no-stale-cp",
            Variant::NoTeardownOnHdp => "no-teardown-on-hdp",
            Variant::StepSixReadsAgain => "step-six-reads-again",
            Variant::ReleaseIgnoresOwner => "release-ignores-owner",
            Variant::KindZeroAllowed => "kind-zero-allowed",
            Variant::NoBlockInReception => "no-block-in-reception",
        }
    }

    pub fn by_name(name: &str) -> Option<Variant> {
        if name == "right" {
            return Some(Variant::Right);
        }
        Variant::BROKEN.iter().copied().find(|v| v.name() == name)
    }
}
