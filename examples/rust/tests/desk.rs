//! Each call of a desk, with answers and refusals.

use bimphlai::{Access, Desk, Fence, Refusal, Row, Status, Usage};
use std::sync::{Arc, Mutex};
use std::thread;

fn shown(fence: &Fence) -> (String, u64, Status) {
    (fence.timeline().into_owned(), fence.point(), fence.status())
}

fn pending(row: &Row) -> (Usage, String, u64) {
    (row.usage(), row.timeline().into_owned(), row.point())
}

/// Returns a desk with two timelines, and a file of a point on each.
fn two_jobs() -> Result<Desk, Refusal> {
    let mut desk = Desk::new()?;
    assert_eq!(desk.timeline("gpu")?, 1);
    assert_eq!(desk.timeline("copy")?, 2);
    desk.fence("drawn", "gpu", 1)?;
    desk.fence("copied", "copy", 1)?;
    Ok(desk)
}

#[test]
fn files() -> Result<(), Refusal> {
    let mut desk = two_jobs()?;
    desk.merge("frame", "drawn", "copied")?;
    desk.watch("frame", 7)?;
    desk.watch("copied", 8)?;
    assert!(desk.unwatch(8) && !desk.unwatch(8));
    assert_eq!(desk.inc("gpu", 1)?, 1);
    assert!(!desk.wait("frame")? && desk.wait("drawn")?);
    assert_eq!(desk.status("frame")?, Status::Active);
    assert_eq!(desk.fired().count(), 0);
    let fences: Vec<_> = desk.fences("frame")?.collect();
    let wanted = [("gpu".to_string(), 1, Status::Signalled), ("copy".to_string(), 1, Status::Active)];
    assert_eq!(fences.iter().map(shown).collect::<Vec<_>>(), wanted);
    assert_eq!(desk.shut("copy")?, 0);
    assert_eq!(desk.fired().collect::<Vec<_>>(), [7]);
    assert_eq!(desk.status("frame")?, Status::Cancelled);
    assert_eq!(desk.value("gpu")?, 1);
    desk.close("frame")?;
    assert_eq!(desk.wait("frame"), Err(Refusal::NoEntry));
    Ok(())
}

#[test]
fn buffers() -> Result<(), Refusal> {
    let mut desk = two_jobs()?;
    desk.buffer("back")?;
    desk.add("back", "gpu", 2, Usage::Write)?;
    desk.import("back", "copied", Access::Read)?;
    let rows: Vec<_> = desk.pending("back")?.collect();
    assert!(rows.iter().map(pending).any(|row| row == (Usage::Write, "gpu".into(), 2)));
    assert!(rows.iter().map(pending).any(|row| row == (Usage::Read, "copy".into(), 1)));
    assert!(!desk.test("back", Usage::Write)?);
    desk.export("idle", "back", Access::ReadWrite)?;
    assert_eq!(desk.fences("idle")?.count(), 2);
    desk.inc("gpu", 2)?;
    assert!(desk.test("back", Usage::Write)? && !desk.test("back", Usage::Read)?);
    desk.trim("back")?;
    let report = desk.report()?;
    assert_eq!(
        report
            .timelines
            .iter()
            .map(|row| (row.timeline().into_owned(), row.value(), row.is_closed()))
            .collect::<Vec<_>>(),
        [("gpu".to_string(), 2, false), ("copy".to_string(), 0, false),]
    );
    assert_eq!(report.files.iter().map(|row| row.file().into_owned()).collect::<Vec<_>>(), ["drawn", "copied", "idle"]);
    assert_eq!(report.files.iter().map(|row| (row.fences(), row.status())).next(), Some((1, Status::Signalled)));
    assert_eq!(
        report.buffers.iter().map(|row| (row.buffer().into_owned(), row.rows() > 0)).collect::<Vec<_>>(),
        [("back".into(), true)]
    );
    Ok(())
}

#[test]
fn refusals() -> Result<(), Refusal> {
    let mut desk = two_jobs()?;
    assert_eq!(desk.timeline("gpu"), Err(Refusal::Exists));
    assert_eq!(desk.timeline("no name"), Err(Refusal::Syntax));
    assert_eq!(desk.timeline("a\0b"), Err(Refusal::Syntax));
    assert_eq!(desk.fence("f", "none", 1), Err(Refusal::NoEntry));
    desk.inc("gpu", u64::MAX)?;
    assert_eq!(desk.inc("gpu", 1), Err(Refusal::Overflow));
    assert_eq!(desk.watch("drawn", 1), Err(Refusal::Signalled));
    assert_eq!(Refusal::NoEntry.to_string(), "refused with 2 NoEntry");
    assert_eq!(Refusal::TimedOut.number(), 8);
    Ok(())
}

#[test]
fn lines() -> Result<(), Refusal> {
    let mut desk = two_jobs()?;
    assert_eq!(desk.line("inc gpu 1"), ("ok 1\n".into(), Ok(())));
    assert_eq!(desk.line("inc none 1"), ("err 2 NoEntry\n".into(), Err(Refusal::NoEntry)));
    assert_eq!(desk.line(&"x".repeat(300)).1, Err(Refusal::LongLine));
    for number in 0..40 {
        desk.timeline(&format!("a-timeline-of-a-long-name-{number}"))?;
    }
    // More than a first try has room for.
    assert_eq!(desk.line("report").0.lines().filter(|row| row.starts_with("timeline ")).count(), 42);
    Ok(())
}

#[test]
fn threads() -> Result<(), Refusal> {
    let desk = Arc::new(Mutex::new(two_jobs()?));
    let workers: Vec<_> = (0..4)
        .map(|_| {
            let desk = Arc::clone(&desk);
            thread::spawn(move || (0..100).try_for_each(|_| desk.lock().unwrap().inc("gpu", 1).map(drop)))
        })
        .collect();
    for worker in workers {
        worker.join().unwrap()?;
    }
    assert_eq!(desk.lock().unwrap().value("gpu")?, 400);
    Ok(())
}
