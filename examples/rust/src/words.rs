//! The small words of calls: usages, accesses, statuses, and texts.

use std::borrow::Cow;
use std::ffi::{c_char, CStr};

/// The usage of a fence in a buffer, from the strongest to the weakest, as `enum dma_resv_usage`.
#[derive(Clone, Copy, Debug, PartialEq, Eq, PartialOrd, Ord, Hash)]
#[repr(i32)]
pub enum Usage {
    Kernel = 0,
    Write = 1,
    Read = 2,
    Bookkeep = 3,
}

impl Usage {
    pub(crate) fn of(number: i32) -> Self {
        match number {
            0 => Self::Kernel,
            1 => Self::Write,
            2 => Self::Read,
            _ => Self::Bookkeep,
        }
    }
}

/// An access to a buffer, as `DMA_BUF_SYNC_READ`, `DMA_BUF_SYNC_WRITE` and `DMA_BUF_SYNC_RW`.
#[derive(Clone, Copy, Debug, PartialEq, Eq, Hash)]
#[repr(u32)]
pub enum Access {
    Read = 1,
    Write = 2,
    ReadWrite = 3,
}

/// The status of a fence or a file, as in `struct sync_fence_info`.
#[derive(Clone, Copy, Debug, PartialEq, Eq, Hash)]
#[repr(i32)]
pub enum Status {
    Active = 0,
    Signalled = 1,
    /// Its timeline was closed first: -ENOENT.
    Cancelled = -2,
}

impl Status {
    pub(crate) fn of(number: i32) -> Self {
        match number {
            0 => Self::Active,
            1 => Self::Signalled,
            _ => Self::Cancelled,
        }
    }
}

/// Returns a static text of the library.
///
/// # Safety
///
/// `text` is a NUL-terminated ASCII text that is never freed.
pub(crate) unsafe fn text(text: *const c_char) -> &'static str {
    CStr::from_ptr(text).to_str().unwrap_or("")
}

/// Returns the name in a column, up to its NUL.
pub(crate) fn name(column: &[c_char]) -> Cow<'_, str> {
    // SAFETY: `c_char` and `u8` have the same layout.
    let bytes = unsafe { std::slice::from_raw_parts(column.as_ptr().cast::<u8>(), column.len()) };
    let end = bytes.iter().position(|&byte| byte == 0).unwrap_or(bytes.len());
    String::from_utf8_lossy(&bytes[..end])
}
