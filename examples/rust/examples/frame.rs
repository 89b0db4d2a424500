//! A frame on a desk: merges the fences of two jobs, waits for the frame, and shows it.

use bimphlai::{Desk, Refusal};

fn main() -> Result<(), Refusal> {
    let mut desk = Desk::new()?;
    for timeline in ["gpu", "copy"] {
        desk.timeline(timeline)?;
        desk.fence(&format!("{timeline}-done"), timeline, 1)?;
    }
    desk.merge("frame", "gpu-done", "copy-done")?;
    for timeline in ["gpu", "copy"] {
        desk.inc(timeline, 1)?;
        println!("after {timeline}: the frame is {}", if desk.wait("frame")? { "shown" } else { "late" });
    }
    Ok(())
}
