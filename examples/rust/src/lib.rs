// SPDX-License-Identifier: MIT OR Apache-2.0
//! GPU fences without a GPU: desks and devices of libbimphlai, which pkg-config finds.
//!
//! A [`Desk`] has timelines, files and buffers by name, a [`Device`] by number, with the kernel's points and errors. The
//! header `bimphlai.h` documents each call, and [`sys`] declares all of them.
//!
//! ```
//! use bimphlai::{Desk, Refusal, Status};
//!
//! let mut desk = Desk::new()?;
//! desk.timeline("gpu")?;
//! desk.fence("frame", "gpu", 1)?;
//! assert!(!desk.wait("frame")?);
//! desk.inc("gpu", 1)?;
//! assert!(desk.wait("frame")?);
//! for fence in desk.fences("frame")? {
//!     assert_eq!((fence.timeline(), fence.point(), fence.status()), ("gpu".into(), 1, Status::Signalled));
//! }
//! assert_eq!(desk.value("no-such-timeline"), Err(Refusal::NoEntry));
//! # Ok::<(), Refusal>(())
//! ```
//!
//! Both may be handed to another thread, and are used by one at a time: share them as `Mutex<Desk>`.

mod desk;
mod device;
mod refusal;
pub mod sys;
mod words;

pub use desk::{BufferRow, Desk, Fence, FileRow, Report, Row, TimelineRow};
pub use device::{Device, DeviceFence, DeviceFile, Point, Raised};
pub use refusal::Refusal;
pub use words::{Access, Status, Usage};

/// The version of the library, as "0.1.0".
pub fn version() -> &'static str {
    // SAFETY: the call returns a text that is never freed.
    unsafe { words::text(sys::bim_version()) }
}
