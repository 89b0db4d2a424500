//! A device, whose objects have numbers, as in the kernel.

use crate::sys;
use crate::words::{self, Access, Status, Usage};
use std::borrow::Cow;
use std::ffi::{c_char, c_int};
use std::{io, iter};

/// A fence of a file.
#[derive(Clone, Copy, Debug)]
pub struct DeviceFence(sys::bim_device_fence_info);

impl DeviceFence {
    /// The name of the task that opened its timeline.
    pub fn timeline(&self) -> Cow<'_, str> {
        words::name(&self.0.timeline)
    }

    pub fn driver(&self) -> Cow<'_, str> {
        words::name(&self.0.driver)
    }

    /// When it signalled, or 0.
    pub fn at(&self) -> u64 {
        self.0.at
    }

    pub fn status(&self) -> Status {
        Status::of(self.0.status)
    }
}

/// A file, as `struct sync_file_info`.
#[derive(Clone, Debug)]
pub struct DeviceFile {
    pub name: String,
    pub status: Status,
    pub fences: Vec<DeviceFence>,
}

/// A fence of a file: the number of its timeline, and its 64-bit point.
#[derive(Clone, Copy, Debug, PartialEq, Eq)]
pub struct Point {
    pub timeline: u64,
    pub value: u64,
    pub is_pending: bool,
}

/// What an increment did.
#[derive(Clone, Copy, Debug, PartialEq, Eq)]
pub struct Raised {
    /// The timeline's first point that is still pending.
    pub pending: Option<u64>,
    /// The number of files that it signalled, which [`Device::woken`] gives.
    pub woken: u64,
}

/// Timelines, files and buffers by number, with the kernel's 32-bit points, lifetimes and errors. Times are nanoseconds of a
/// clock of the caller's.
#[derive(Debug)]
pub struct Device {
    handle: sys::bim_device,
}

// SAFETY: the library keeps nothing for a thread, and each call takes the device by `&mut`.
unsafe impl Send for Device {}

/// Returns the result of a call that returned this number.
fn checked(number: c_int) -> io::Result<()> {
    match number {
        0 => Ok(()),
        errno => Err(io::Error::from_raw_os_error(errno)),
    }
}

/// Makes a call on the device's handle.
macro_rules! ask {
    ($device:expr, $call:ident $(, $argument:expr)*) => {
        // SAFETY: the handle is open, and the arguments are values, slices with their lengths, or places of this thread.
        checked(unsafe { sys::$call(&mut $device.handle $(, $argument)*) })
    };
}

impl Device {
    /// Opens an empty device.
    pub fn new() -> io::Result<Self> {
        let mut device = Self { handle: sys::bim_device { at: std::ptr::null_mut() } };
        ask!(device, bim_device_open)?;
        Ok(device)
    }

    /// Creates a timeline of a task, and returns its number.
    pub fn timeline(&mut self, task: &str) -> io::Result<u64> {
        let mut timeline = 0;
        ask!(self, bim_device_timeline_n, task.as_ptr().cast::<c_char>(), task.len(), &mut timeline)?;
        Ok(timeline)
    }

    /// Creates a file with a point on a timeline, and returns its number.
    pub fn fence(&mut self, timeline: u64, point: u32, now: u64) -> io::Result<u64> {
        let mut file = 0;
        ask!(self, bim_device_fence, timeline, point, now, &mut file)?;
        Ok(file)
    }

    /// Adds `n` to a timeline's value.
    pub fn inc(&mut self, timeline: u64, n: u32, now: u64) -> io::Result<Raised> {
        let mut raised = sys::bim_device_raised::default();
        ask!(self, bim_device_inc, timeline, n, now, &mut raised)?;
        Ok(Raised { pending: Some(raised.pending).filter(|&point| point != 0), woken: raised.woken })
    }

    /// Creates a file that waits for all that two files wait for, and returns its number. Without a name it is named after
    /// its fences.
    pub fn merge(&mut self, a: u64, b: u64, name: &str) -> io::Result<u64> {
        let mut file = 0;
        ask!(self, bim_device_merge_n, a, b, name.as_ptr().cast::<c_char>(), name.len(), &mut file)?;
        Ok(file)
    }

    pub fn status(&mut self, file: u64) -> io::Result<Status> {
        let mut status = 0;
        ask!(self, bim_device_status, file, &mut status)?;
        Ok(Status::of(status))
    }

    pub fn is_signalled(&mut self, file: u64) -> io::Result<bool> {
        let mut signalled = 0;
        ask!(self, bim_device_is_signalled, file, &mut signalled)?;
        Ok(signalled != 0)
    }

    /// Returns what Linux reports about a file.
    pub fn info(&mut self, file: u64) -> io::Result<DeviceFile> {
        let mut rows = vec![sys::bim_device_fence_info::default()];
        loop {
            let mut info = sys::bim_device_file_info::default();
            ask!(self, bim_device_info_n, file, &mut info, rows.as_mut_ptr(), rows.len())?;
            let count = info.fences as usize;
            if count <= rows.len() {
                let fences = rows.into_iter().take(count).map(DeviceFence).collect();
                return Ok(DeviceFile {
                    name: words::name(&info.name).into_owned(),
                    status: Status::of(info.status),
                    fences,
                });
            }
            rows.resize(count, sys::bim_device_fence_info::default());
        }
    }

    /// Releases a timeline, a file or a buffer.
    pub fn release(&mut self, object: u64, now: u64) -> io::Result<()> {
        ask!(self, bim_device_release, object, now)
    }

    /// Creates a buffer, and returns its number.
    pub fn buffer(&mut self, now: u64) -> io::Result<u64> {
        let mut buffer = 0;
        ask!(self, bim_device_buffer, now, &mut buffer)?;
        Ok(buffer)
    }

    /// Creates a file with the fences for which an access to a buffer has to wait, and returns its number.
    pub fn export(&mut self, buffer: u64, access: Access) -> io::Result<u64> {
        let mut file = 0;
        ask!(self, bim_device_export, buffer, access as u32, &mut file)?;
        Ok(file)
    }

    /// Adds a file's pending fences to a buffer, for an access.
    pub fn import(&mut self, buffer: u64, file: u64, access: Access) -> io::Result<()> {
        ask!(self, bim_device_import, buffer, file, access as u32)
    }

    /// Returns whether each fence of a buffer at this usage or a stronger one has signalled.
    pub fn test(&mut self, buffer: u64, usage: Usage) -> io::Result<bool> {
        let mut signalled = 0;
        ask!(self, bim_device_test, buffer, usage as c_int, &mut signalled)?;
        Ok(signalled != 0)
    }

    pub fn value(&mut self, timeline: u64) -> io::Result<u64> {
        let mut value = 0;
        ask!(self, bim_device_value, timeline, &mut value)?;
        Ok(value)
    }

    /// Returns the least point at which an increment by `n` would signal a file.
    pub fn first_due(&mut self, timeline: u64, n: u64) -> io::Result<Option<u64>> {
        let mut point = 0;
        ask!(self, bim_device_first_due, timeline, n, &mut point)?;
        Ok(Some(point).filter(|&point| point != 0))
    }

    /// Returns the fence of a file at an index.
    pub fn fence_of(&mut self, file: u64, index: usize) -> io::Result<Point> {
        let mut point = sys::bim_device_point::default();
        ask!(self, bim_device_fence_of, file, index, &mut point)?;
        Ok(Point { timeline: point.timeline, value: point.value, is_pending: point.is_pending != 0 })
    }

    /// Takes the files that have signalled, in order of the calls that signalled them.
    pub fn woken(&mut self) -> impl Iterator<Item = u64> + '_ {
        iter::from_fn(|| {
            let mut file = 0;
            // SAFETY: the handle is open, and there is room for one number.
            let count = unsafe { sys::bim_device_take_woken(&mut self.handle, &mut file, 1) };
            (count == 1).then_some(file)
        })
    }
}

impl Drop for Device {
    fn drop(&mut self) {
        // SAFETY: the handle is the device's own.
        unsafe { sys::bim_device_close(&mut self.handle) }
    }
}
