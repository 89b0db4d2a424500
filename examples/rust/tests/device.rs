//! Each call of a device, with answers and errors.

use bimphlai::{Access, Device, Point, Raised, Status, Usage};
use std::io;

const ENOENT: i32 = 2;
const EINVAL: i32 = 22;
const ENOTTY: i32 = 25;

fn error<T>(result: io::Result<T>) -> Option<i32> {
    result.err().and_then(|error| error.raw_os_error())
}

#[test]
fn files() -> io::Result<()> {
    let mut device = Device::new()?;
    let (gpu, copy) = (device.timeline("renderer")?, device.timeline("mover")?);
    let (drawn, copied) = (device.fence(gpu, 1, 10)?, device.fence(copy, 2, 10)?);
    let frame = device.merge(drawn, copied, "frame")?;
    assert_eq!(device.first_due(gpu, 1)?, Some(1));
    assert_eq!(device.inc(gpu, 1, 20)?, Raised { pending: None, woken: 1 });
    assert_eq!(device.first_due(gpu, u64::MAX)?, None);
    assert_eq!(device.woken().collect::<Vec<_>>(), [drawn]);
    assert_eq!(device.inc(copy, 1, 20)?, Raised { pending: Some(2), woken: 0 });
    assert!(device.is_signalled(drawn)? && !device.is_signalled(frame)?);
    assert_eq!(device.fence_of(copied, 0)?, Point { timeline: copy, value: 2, is_pending: true });
    assert_eq!(error(device.fence_of(copied, 1)), Some(EINVAL));
    assert_eq!(device.value(gpu)?, 1);
    device.release(copy, 30)?;
    assert_eq!(device.woken().collect::<Vec<_>>(), [copied, frame]);
    assert_eq!(device.status(copied)?, Status::Cancelled);
    let info = device.info(frame)?;
    assert_eq!((info.name.as_str(), info.fences.len()), ("frame", 2));
    let fences: Vec<_> =
        info.fences.iter().map(|fence| (fence.timeline(), fence.at(), fence.driver(), fence.status())).collect();
    assert_eq!(fences[0], ("renderer".into(), 20, "sw_sync".into(), Status::Signalled));
    assert_eq!(fences[1], ("mover".into(), 30, "sw_sync".into(), Status::Cancelled));
    Ok(())
}

#[test]
fn buffers() -> io::Result<()> {
    let mut device = Device::new()?;
    let gpu = device.timeline("renderer")?;
    let (buffer, drawn) = (device.buffer(5)?, device.fence(gpu, 1, 0)?);
    device.import(buffer, drawn, Access::Write)?;
    assert!(!device.test(buffer, Usage::Read)?);
    let idle = device.export(buffer, Access::Read)?;
    device.inc(gpu, 1, 7)?;
    assert!(device.is_signalled(idle)? && device.test(buffer, Usage::Bookkeep)?);
    assert_eq!(device.woken().collect::<Vec<_>>(), [drawn, idle]);
    assert_eq!(error(device.status(99)), Some(ENOENT));
    assert_eq!(error(device.status(gpu)), Some(ENOTTY));
    Ok(())
}

#[test]
fn many_fences() -> io::Result<()> {
    let mut device = Device::new()?;
    let first = device.timeline("task 0")?;
    let mut all = device.fence(first, 1, 0)?;
    for number in 1..300 {
        let timeline = device.timeline(&format!("task {number}"))?;
        let file = device.fence(timeline, 1, 0)?;
        all = device.merge(all, file, "")?;
    }
    let info = device.info(all)?;
    assert_eq!(info.fences.len(), 300);
    assert!(info.fences.iter().all(|fence| fence.status() == Status::Active));
    Ok(())
}
