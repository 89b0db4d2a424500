// SPDX-License-Identifier: MIT OR Apache-2.0
//! The calls, structs and limits of `bimphlai.h`, which documents them. `tests/header.rs` compares both.
#![allow(non_camel_case_types)]

use std::ffi::{c_char, c_int, c_void};

pub const BIM_NAME_ROOM: usize = 32;
pub const BIM_DRIVER_ROOM: usize = 8;
pub const BIM_CONTEXTS: usize = 256;
pub const BIM_BUFFERS: usize = 64;
pub const BIM_FILES: usize = 1024;
pub const BIM_WATCHES: usize = 4096;
pub const BIM_LINE_BYTES: usize = 256;
pub const BIM_ANSWER_ROOM: usize = 96;
/// The usages of `enum bim_usage`.
pub const BIM_USAGES: usize = 4;

#[repr(C)]
#[derive(Debug)]
pub struct bim_desk {
    pub at: *mut c_void,
}

#[repr(C)]
#[derive(Clone, Copy, Debug, Default)]
pub struct bim_fence_info {
    pub timeline: [c_char; BIM_NAME_ROOM],
    pub point: u64,
    pub driver: [c_char; BIM_DRIVER_ROOM],
    pub status: i32,
}

#[repr(C)]
#[derive(Clone, Copy, Debug, Default)]
pub struct bim_row {
    pub usage: i32,
    pub timeline: [c_char; BIM_NAME_ROOM],
    pub point: u64,
}

#[repr(C)]
#[derive(Clone, Copy, Debug, Default)]
pub struct bim_timeline_row {
    pub timeline: [c_char; BIM_NAME_ROOM],
    pub value: u64,
    pub is_closed: i32,
}

#[repr(C)]
#[derive(Clone, Copy, Debug, Default)]
pub struct bim_file_row {
    pub file: [c_char; BIM_NAME_ROOM],
    pub fences: u64,
    pub status: i32,
}

#[repr(C)]
#[derive(Clone, Copy, Debug, Default)]
pub struct bim_buffer_row {
    pub buffer: [c_char; BIM_NAME_ROOM],
    pub rows: u64,
}

#[repr(C)]
#[derive(Clone, Copy, Debug, Default)]
pub struct bim_counts {
    pub timelines: usize,
    pub files: usize,
    pub buffers: usize,
}

#[repr(C)]
#[derive(Debug)]
pub struct bim_device {
    pub at: *mut c_void,
}

#[repr(C)]
#[derive(Clone, Copy, Debug, Default)]
pub struct bim_device_raised {
    pub pending: u64,
    pub woken: u64,
}

#[repr(C)]
#[derive(Clone, Copy, Debug, Default)]
pub struct bim_device_fence_info {
    pub timeline: [c_char; BIM_NAME_ROOM],
    pub at: u64,
    pub driver: [c_char; BIM_DRIVER_ROOM],
    pub status: i32,
}

#[repr(C)]
#[derive(Clone, Copy, Debug, Default)]
pub struct bim_device_file_info {
    pub name: [c_char; BIM_NAME_ROOM],
    pub fences: u64,
    pub status: i32,
}

#[repr(C)]
#[derive(Clone, Copy, Debug, Default)]
pub struct bim_device_point {
    pub timeline: u64,
    pub value: u64,
    pub is_pending: i32,
}

extern "C" {
    pub fn bim_version() -> *const c_char;
    pub fn bim_refusal_name(refusal: c_int) -> *const c_char;
    pub fn bim_desk_open(desk: *mut bim_desk) -> c_int;
    pub fn bim_desk_close(desk: *mut bim_desk);
    pub fn bim_timeline(desk: *mut bim_desk, timeline: *const c_char, context: *mut u64) -> c_int;
    pub fn bim_inc(desk: *mut bim_desk, timeline: *const c_char, n: u64, value: *mut u64) -> c_int;
    pub fn bim_shut(desk: *mut bim_desk, timeline: *const c_char, value: *mut u64) -> c_int;
    pub fn bim_value(desk: *mut bim_desk, timeline: *const c_char, value: *mut u64) -> c_int;
    pub fn bim_fence(desk: *mut bim_desk, file: *const c_char, timeline: *const c_char, point: u64) -> c_int;
    pub fn bim_merge(desk: *mut bim_desk, file: *const c_char, a: *const c_char, b: *const c_char) -> c_int;
    pub fn bim_close(desk: *mut bim_desk, file: *const c_char) -> c_int;
    pub fn bim_wait(desk: *mut bim_desk, file: *const c_char) -> c_int;
    pub fn bim_info(
        desk: *mut bim_desk,
        file: *const c_char,
        status: *mut i32,
        rows: *mut bim_fence_info,
        room: usize,
        count: *mut usize,
    ) -> c_int;
    pub fn bim_buffer(desk: *mut bim_desk, buffer: *const c_char) -> c_int;
    pub fn bim_add(
        desk: *mut bim_desk,
        buffer: *const c_char,
        timeline: *const c_char,
        point: u64,
        usage: c_int,
    ) -> c_int;
    pub fn bim_import(desk: *mut bim_desk, buffer: *const c_char, file: *const c_char, flags: u32) -> c_int;
    pub fn bim_export(desk: *mut bim_desk, file: *const c_char, buffer: *const c_char, flags: u32) -> c_int;
    pub fn bim_test(desk: *mut bim_desk, buffer: *const c_char, usage: c_int, signalled: *mut c_int) -> c_int;
    pub fn bim_trim(desk: *mut bim_desk, buffer: *const c_char) -> c_int;
    pub fn bim_show(
        desk: *mut bim_desk,
        buffer: *const c_char,
        rows: *mut bim_row,
        room: usize,
        count: *mut usize,
    ) -> c_int;
    pub fn bim_watch(desk: *mut bim_desk, file: *const c_char, cookie: u64) -> c_int;
    pub fn bim_unwatch(desk: *mut bim_desk, cookie: u64, was_there: *mut c_int) -> c_int;
    pub fn bim_take_fired(desk: *mut bim_desk, cookies: *mut u64, room: usize) -> usize;
    pub fn bim_report(
        desk: *mut bim_desk,
        timelines: *mut bim_timeline_row,
        timelines_room: usize,
        files: *mut bim_file_row,
        files_room: usize,
        buffers: *mut bim_buffer_row,
        buffers_room: usize,
        counts: *mut bim_counts,
    ) -> c_int;
    pub fn bim_line(
        desk: *mut bim_desk,
        line: *const c_char,
        line_length: usize,
        out: *mut c_char,
        room: usize,
        length: *mut usize,
    ) -> c_int;
    pub fn bim_timeline_n(
        desk: *mut bim_desk,
        timeline: *const c_char,
        timeline_length: usize,
        context: *mut u64,
    ) -> c_int;
    pub fn bim_inc_n(
        desk: *mut bim_desk,
        timeline: *const c_char,
        timeline_length: usize,
        n: u64,
        value: *mut u64,
    ) -> c_int;
    pub fn bim_shut_n(desk: *mut bim_desk, timeline: *const c_char, timeline_length: usize, value: *mut u64) -> c_int;
    pub fn bim_value_n(desk: *mut bim_desk, timeline: *const c_char, timeline_length: usize, value: *mut u64) -> c_int;
    pub fn bim_fence_n(
        desk: *mut bim_desk,
        file: *const c_char,
        file_length: usize,
        timeline: *const c_char,
        timeline_length: usize,
        point: u64,
    ) -> c_int;
    pub fn bim_merge_n(
        desk: *mut bim_desk,
        file: *const c_char,
        file_length: usize,
        a: *const c_char,
        a_length: usize,
        b: *const c_char,
        b_length: usize,
    ) -> c_int;
    pub fn bim_close_n(desk: *mut bim_desk, file: *const c_char, file_length: usize) -> c_int;
    pub fn bim_wait_n(desk: *mut bim_desk, file: *const c_char, file_length: usize) -> c_int;
    pub fn bim_info_n(
        desk: *mut bim_desk,
        file: *const c_char,
        file_length: usize,
        status: *mut i32,
        rows: *mut bim_fence_info,
        room: usize,
        count: *mut usize,
    ) -> c_int;
    pub fn bim_buffer_n(desk: *mut bim_desk, buffer: *const c_char, buffer_length: usize) -> c_int;
    pub fn bim_add_n(
        desk: *mut bim_desk,
        buffer: *const c_char,
        buffer_length: usize,
        timeline: *const c_char,
        timeline_length: usize,
        point: u64,
        usage: c_int,
    ) -> c_int;
    pub fn bim_import_n(
        desk: *mut bim_desk,
        buffer: *const c_char,
        buffer_length: usize,
        file: *const c_char,
        file_length: usize,
        flags: u32,
    ) -> c_int;
    pub fn bim_export_n(
        desk: *mut bim_desk,
        file: *const c_char,
        file_length: usize,
        buffer: *const c_char,
        buffer_length: usize,
        flags: u32,
    ) -> c_int;
    pub fn bim_test_n(
        desk: *mut bim_desk,
        buffer: *const c_char,
        buffer_length: usize,
        usage: c_int,
        signalled: *mut c_int,
    ) -> c_int;
    pub fn bim_trim_n(desk: *mut bim_desk, buffer: *const c_char, buffer_length: usize) -> c_int;
    pub fn bim_show_n(
        desk: *mut bim_desk,
        buffer: *const c_char,
        buffer_length: usize,
        rows: *mut bim_row,
        room: usize,
        count: *mut usize,
    ) -> c_int;
    pub fn bim_watch_n(desk: *mut bim_desk, file: *const c_char, file_length: usize, cookie: u64) -> c_int;
    pub fn bim_report_n(
        desk: *mut bim_desk,
        timelines: *mut bim_timeline_row,
        timelines_room: usize,
        files: *mut bim_file_row,
        files_room: usize,
        buffers: *mut bim_buffer_row,
        buffers_room: usize,
        counts: *mut bim_counts,
    ) -> c_int;
    pub fn bim_device_open(device: *mut bim_device) -> c_int;
    pub fn bim_device_close(device: *mut bim_device);
    pub fn bim_device_timeline(device: *mut bim_device, task: *const c_char, timeline: *mut u64) -> c_int;
    pub fn bim_device_fence(device: *mut bim_device, timeline: u64, point: u32, now: u64, file: *mut u64) -> c_int;
    pub fn bim_device_inc(
        device: *mut bim_device,
        timeline: u64,
        n: u32,
        now: u64,
        raised: *mut bim_device_raised,
    ) -> c_int;
    pub fn bim_device_merge(device: *mut bim_device, a: u64, b: u64, name: *const c_char, file: *mut u64) -> c_int;
    pub fn bim_device_status(device: *mut bim_device, file: u64, status: *mut i32) -> c_int;
    pub fn bim_device_is_signalled(device: *mut bim_device, file: u64, signalled: *mut i32) -> c_int;
    pub fn bim_device_info(
        device: *mut bim_device,
        file: u64,
        info: *mut bim_device_file_info,
        rows: *mut bim_device_fence_info,
        room: usize,
    ) -> c_int;
    pub fn bim_device_release(device: *mut bim_device, object: u64, now: u64) -> c_int;
    pub fn bim_device_buffer(device: *mut bim_device, now: u64, buffer: *mut u64) -> c_int;
    pub fn bim_device_export(device: *mut bim_device, buffer: u64, flags: u32, file: *mut u64) -> c_int;
    pub fn bim_device_import(device: *mut bim_device, buffer: u64, file: u64, flags: u32) -> c_int;
    pub fn bim_device_test(device: *mut bim_device, buffer: u64, usage: c_int, signalled: *mut i32) -> c_int;
    pub fn bim_device_value(device: *mut bim_device, timeline: u64, value: *mut u64) -> c_int;
    pub fn bim_device_first_due(device: *mut bim_device, timeline: u64, n: u64, point: *mut u64) -> c_int;
    pub fn bim_device_fence_of(device: *mut bim_device, file: u64, index: usize, point: *mut bim_device_point)
        -> c_int;
    pub fn bim_device_take_woken(device: *mut bim_device, files: *mut u64, room: usize) -> usize;
    pub fn bim_device_timeline_n(
        device: *mut bim_device,
        task: *const c_char,
        task_length: usize,
        timeline: *mut u64,
    ) -> c_int;
    pub fn bim_device_merge_n(
        device: *mut bim_device,
        a: u64,
        b: u64,
        name: *const c_char,
        name_length: usize,
        file: *mut u64,
    ) -> c_int;
    pub fn bim_device_info_n(
        device: *mut bim_device,
        file: u64,
        info: *mut bim_device_file_info,
        rows: *mut bim_device_fence_info,
        room: usize,
    ) -> c_int;
}
