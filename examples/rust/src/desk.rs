//! A desk, whose objects have names.

use crate::words::{self, Access, Status, Usage};
use crate::{sys, Refusal};
use std::borrow::Cow;
use std::ffi::c_char;
use std::iter;

/// A fence of a file.
#[derive(Clone, Copy, Debug)]
pub struct Fence(sys::bim_fence_info);

impl Fence {
    pub fn timeline(&self) -> Cow<'_, str> {
        words::name(&self.0.timeline)
    }

    pub fn point(&self) -> u64 {
        self.0.point
    }

    pub fn status(&self) -> Status {
        Status::of(self.0.status)
    }
}

/// A pending fence of a buffer: the latest point of a timeline at this usage or a stronger one.
#[derive(Clone, Copy, Debug)]
pub struct Row(sys::bim_row);

impl Row {
    pub fn usage(&self) -> Usage {
        Usage::of(self.0.usage)
    }

    pub fn timeline(&self) -> Cow<'_, str> {
        words::name(&self.0.timeline)
    }

    pub fn point(&self) -> u64 {
        self.0.point
    }
}

/// A timeline in a report.
#[derive(Clone, Copy, Debug)]
pub struct TimelineRow(sys::bim_timeline_row);

impl TimelineRow {
    pub fn timeline(&self) -> Cow<'_, str> {
        words::name(&self.0.timeline)
    }

    pub fn value(&self) -> u64 {
        self.0.value
    }

    pub fn is_closed(&self) -> bool {
        self.0.is_closed != 0
    }
}

/// A file in a report.
#[derive(Clone, Copy, Debug)]
pub struct FileRow(sys::bim_file_row);

impl FileRow {
    pub fn file(&self) -> Cow<'_, str> {
        words::name(&self.0.file)
    }

    pub fn fences(&self) -> u64 {
        self.0.fences
    }

    pub fn status(&self) -> Status {
        Status::of(self.0.status)
    }
}

/// A buffer in a report.
#[derive(Clone, Copy, Debug)]
pub struct BufferRow(sys::bim_buffer_row);

impl BufferRow {
    pub fn buffer(&self) -> Cow<'_, str> {
        words::name(&self.0.buffer)
    }

    /// The number of its pending fences.
    pub fn rows(&self) -> u64 {
        self.0.rows
    }
}

/// All that a desk has: timelines in order of their contexts, files and buffers in order of creation.
#[derive(Clone, Debug)]
pub struct Report {
    pub timelines: Vec<TimelineRow>,
    pub files: Vec<FileRow>,
    pub buffers: Vec<BufferRow>,
}

/// Timelines, files and buffers by name.
#[derive(Debug)]
pub struct Desk {
    handle: sys::bim_desk,
}

// SAFETY: the library keeps nothing for a thread, and each call takes the desk by `&mut`.
unsafe impl Send for Desk {}

/// Returns a name as the two arguments of a call.
fn given(name: &str) -> (*const c_char, usize) {
    (name.as_ptr().cast(), name.len())
}

/// Makes a call, by its name without `bim_`, on the desk's handle, with names (`name`) as two arguments each.
macro_rules! ask {
    ($desk:expr, $call:ident, [$($name:expr),*] $(, $other:expr)*) => {
        // SAFETY: the handle is open, names are slices with their lengths, and the others are values, or places of this
        // thread with the room that is said.
        Refusal::of(unsafe { ask!(@ $desk, $call, ($(given($name)),*) $(, $other)*) })
    };
    (@ $desk:expr, $call:ident, () $(, $other:expr)*) => { sys::$call(&mut $desk.handle $(, $other)*) };
    (@ $desk:expr, $call:ident, ($a:expr) $(, $other:expr)*) => {{
        let a = $a;
        sys::$call(&mut $desk.handle, a.0, a.1 $(, $other)*)
    }};
    (@ $desk:expr, $call:ident, ($a:expr, $b:expr) $(, $other:expr)*) => {{
        let (a, b) = ($a, $b);
        sys::$call(&mut $desk.handle, a.0, a.1, b.0, b.1 $(, $other)*)
    }};
    (@ $desk:expr, $call:ident, ($a:expr, $b:expr, $c:expr) $(, $other:expr)*) => {{
        let (a, b, c) = ($a, $b, $c);
        sys::$call(&mut $desk.handle, a.0, a.1, b.0, b.1, c.0, c.1 $(, $other)*)
    }};
}

impl Desk {
    /// Opens an empty desk.
    pub fn new() -> Result<Self, Refusal> {
        let mut desk = Self { handle: sys::bim_desk { at: std::ptr::null_mut() } };
        ask!(desk, bim_desk_open, [])?;
        Ok(desk)
    }

    /// Creates a timeline at 0, and returns its context.
    pub fn timeline(&mut self, timeline: &str) -> Result<u64, Refusal> {
        let mut context = 0;
        ask!(self, bim_timeline_n, [timeline], &mut context)?;
        Ok(context)
    }

    /// Adds `n` to a timeline's value, and returns the new value. [`Desk::fired`] has the watches that this fires.
    pub fn inc(&mut self, timeline: &str, n: u64) -> Result<u64, Refusal> {
        let mut value = 0;
        ask!(self, bim_inc_n, [timeline], n, &mut value)?;
        Ok(value)
    }

    /// Closes a timeline, which cancels its pending points, and returns its value.
    pub fn shut(&mut self, timeline: &str) -> Result<u64, Refusal> {
        let mut value = 0;
        ask!(self, bim_shut_n, [timeline], &mut value)?;
        Ok(value)
    }

    pub fn value(&mut self, timeline: &str) -> Result<u64, Refusal> {
        let mut value = 0;
        ask!(self, bim_value_n, [timeline], &mut value)?;
        Ok(value)
    }

    /// Creates a file with a point on a timeline.
    pub fn fence(&mut self, file: &str, timeline: &str, point: u64) -> Result<(), Refusal> {
        ask!(self, bim_fence_n, [file, timeline], point)
    }

    /// Creates a file that waits for all that two files wait for.
    pub fn merge(&mut self, file: &str, a: &str, b: &str) -> Result<(), Refusal> {
        ask!(self, bim_merge_n, [file, a, b])
    }

    /// Closes a file, whose name can be used again.
    pub fn close(&mut self, file: &str) -> Result<(), Refusal> {
        ask!(self, bim_close_n, [file])
    }

    /// Looks once whether a file is signalled or cancelled.
    pub fn wait(&mut self, file: &str) -> Result<bool, Refusal> {
        match ask!(self, bim_wait_n, [file]) {
            Err(Refusal::TimedOut) => Ok(false),
            answer => answer.map(|()| true),
        }
    }

    /// Returns a file's status.
    pub fn status(&mut self, file: &str) -> Result<Status, Refusal> {
        let (mut status, mut count, mut row) = (0, 0, sys::bim_fence_info::default());
        ask!(self, bim_info_n, [file], &mut status, &mut row, 0, &mut count)?;
        Ok(Status::of(status))
    }

    /// Returns the fences of a file, in order of their contexts.
    pub fn fences(&mut self, file: &str) -> Result<impl Iterator<Item = Fence>, Refusal> {
        let mut rows = vec![sys::bim_fence_info::default(); sys::BIM_CONTEXTS];
        let (mut status, mut count) = (0, 0);
        ask!(self, bim_info_n, [file], &mut status, rows.as_mut_ptr(), rows.len(), &mut count)?;
        Ok(rows.into_iter().take(count).map(Fence))
    }

    /// Creates a buffer, which lives as long as the desk.
    pub fn buffer(&mut self, buffer: &str) -> Result<(), Refusal> {
        ask!(self, bim_buffer_n, [buffer])
    }

    /// Adds a fence to a buffer.
    pub fn add(&mut self, buffer: &str, timeline: &str, point: u64, usage: Usage) -> Result<(), Refusal> {
        ask!(self, bim_add_n, [buffer, timeline], point, usage as i32)
    }

    /// Adds a file's fences to a buffer, for an access.
    pub fn import(&mut self, buffer: &str, file: &str, access: Access) -> Result<(), Refusal> {
        ask!(self, bim_import_n, [buffer, file], access as u32)
    }

    /// Creates a file with the fences for which an access to a buffer has to wait.
    pub fn export(&mut self, file: &str, buffer: &str, access: Access) -> Result<(), Refusal> {
        ask!(self, bim_export_n, [file, buffer], access as u32)
    }

    /// Returns whether each fence of a buffer at this usage or a stronger one is signalled or cancelled.
    pub fn test(&mut self, buffer: &str, usage: Usage) -> Result<bool, Refusal> {
        let mut signalled = 0;
        ask!(self, bim_test_n, [buffer], usage as i32, &mut signalled)?;
        Ok(signalled != 0)
    }

    /// Drops a buffer's fences that no access has to wait for any more. No call can observe that.
    pub fn trim(&mut self, buffer: &str) -> Result<(), Refusal> {
        ask!(self, bim_trim_n, [buffer])
    }

    /// Returns the pending fences of a buffer, from the strongest usage and by rising context.
    pub fn pending(&mut self, buffer: &str) -> Result<impl Iterator<Item = Row>, Refusal> {
        let mut rows = vec![sys::bim_row::default(); sys::BIM_CONTEXTS * sys::BIM_USAGES];
        let mut count = 0;
        ask!(self, bim_show_n, [buffer], rows.as_mut_ptr(), rows.len(), &mut count)?;
        Ok(rows.into_iter().take(count).map(Row))
    }

    /// Lets a cookie fire once a file is signalled or cancelled.
    pub fn watch(&mut self, file: &str, cookie: u64) -> Result<(), Refusal> {
        ask!(self, bim_watch_n, [file], cookie)
    }

    /// Removes the watch of a cookie, and returns whether there was one.
    pub fn unwatch(&mut self, cookie: u64) -> bool {
        let mut was_there = 0;
        // It is refused only if the desk is closed.
        ask!(self, bim_unwatch, [], cookie, &mut was_there).is_ok() && was_there != 0
    }

    /// Takes the cookies that have fired, in order of firing.
    pub fn fired(&mut self) -> impl Iterator<Item = u64> + '_ {
        iter::from_fn(|| {
            let mut cookie = 0;
            // SAFETY: the handle is open, and there is room for one number.
            let count = unsafe { sys::bim_take_fired(&mut self.handle, &mut cookie, 1) };
            (count == 1).then_some(cookie)
        })
    }

    /// Returns all timelines, files and buffers.
    pub fn report(&mut self) -> Result<Report, Refusal> {
        let mut timelines = vec![sys::bim_timeline_row::default(); sys::BIM_CONTEXTS];
        let mut files = vec![sys::bim_file_row::default(); sys::BIM_FILES];
        let mut buffers = vec![sys::bim_buffer_row::default(); sys::BIM_BUFFERS];
        let mut counts = sys::bim_counts::default();
        let rooms = (timelines.len(), files.len(), buffers.len());
        let at = (timelines.as_mut_ptr(), files.as_mut_ptr(), buffers.as_mut_ptr());
        ask!(self, bim_report_n, [], at.0, rooms.0, at.1, rooms.1, at.2, rooms.2, &mut counts)?;
        Ok(Report {
            timelines: timelines.into_iter().take(counts.timelines).map(TimelineRow).collect(),
            files: files.into_iter().take(counts.files).map(FileRow).collect(),
            buffers: buffers.into_iter().take(counts.buffers).map(BufferRow).collect(),
        })
    }

    /// Runs one line of a script, and returns the text of its answer, as `fencectl` prints it, also of a refusal.
    pub fn line(&mut self, line: &str) -> (String, Result<(), Refusal>) {
        let mut room = sys::BIM_ANSWER_ROOM;
        loop {
            let (mut text, mut length) = (vec![0_u8; room], 0);
            let answer = ask!(self, bim_line, [line], text.as_mut_ptr().cast(), room, &mut length);
            if length < room {
                text.truncate(length);
                return (String::from_utf8_lossy(&text).into_owned(), answer);
            }
            // The command only asked, and nothing has changed.
            room = length + 1;
        }
    }
}

impl Drop for Desk {
    fn drop(&mut self) {
        // SAFETY: the handle is the desk's own.
        unsafe { sys::bim_desk_close(&mut self.handle) }
    }
}
