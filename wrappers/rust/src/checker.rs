//! The checker: a trace's text is replayed, and an events file is answered.
use crate::archive::{phaser_c_abi_1, phaser_c_events, phaser_c_replay};
use std::error::Error;
use std::fmt;

/// A text was refused, or memory for it.
///
/// ```
/// let refused = paldwosk::replay(b"no trace").unwrap_err();
/// assert_eq!(refused.line, "refused 24 BadText at 0\n"); // the first byte is at fault
/// assert_eq!(refused.to_string(), "refused 24 BadText at 0");
/// ```
#[derive(Clone, PartialEq, Eq)]
pub struct Refused {
    /// The line of the refusal, with its newline, as `refused 25 NotExplained at 7`.
    pub line: String,
}

impl fmt::Display for Refused {
    fn fmt(&self, f: &mut fmt::Formatter<'_>) -> fmt::Result {
        f.write_str(self.line.trim_end())
    }
}

/// The line too, since it is this that Rust prints of an `Err` that `main` returns.
impl fmt::Debug for Refused {
    fn fmt(&self, f: &mut fmt::Formatter<'_>) -> fmt::Result {
        fmt::Display::fmt(self, f)
    }
}

impl Error for Refused {}

/// A function of the checker: bytes, a room for the lines, and how many bytes those are.
type Check = unsafe extern "C" fn(*const u8, usize, *mut u8, usize, &mut usize) -> u32;

/// Checks the text, at first with so much room, and with as much as the lines need if that was too little.
fn check(function: Check, text: &[u8], room: usize) -> Result<String, Refused> {
    let (mut room, mut written) = (vec![0; room], 0);
    // SAFETY: it takes nothing.
    unsafe { phaser_c_abi_1() };
    loop {
        // SAFETY: the pointers and lengths are those of a slice and of a list that nobody else has.
        let number = unsafe {
            function(text.as_ptr(), text.len(), room.as_mut_ptr(), room.len(), &mut written)
        };
        let lines = |room: &[u8]| String::from_utf8_lossy(&room[..written]).into_owned();
        match number {
            0 => return Ok(lines(&room)),
            67 => room.resize(written, 0),
            _ => return Err(Refused { line: lines(&room) }),
        }
    }
}

/// Replays the text of a trace: makes its events again, one by one. Returns the lines of the report, if they are a run.
///
/// ```
/// let trace = r#"{"events":[[1,"p",0,"make",0,"SIG_WAIT",[]],[2,"t",0,"begin",["next"]],[3,"p",0,"sig",0],
///   [4,"p",0,"pass",0],[5,"t",0,"begin",["end"]],[6,"p",0,"drop",0],[7,"f",0,"shut"]],"limits":{"acts":4096,
///   "finishes":64,"history":4096,"phasers":64,"regs":256,"tasks":256},"version":1}"#;
/// let report = paldwosk::replay(trace.as_bytes()).unwrap();
/// assert!(report.starts_with("phaser 0 phases 1\ntask 0 ended\n"));
/// ```
pub fn replay(trace: &[u8]) -> Result<String, Refused> {
    check(phaser_c_replay, trace, 4096)
}

/// Answers an events file: makes its calls on one phaser. The line of each reply.
///
/// ```
/// let file = br#"{"accs":["sum"],"calls":[["make",0,"SIG_WAIT"],["send",0,0,1],["look",0,0]]}"#;
/// assert_eq!(paldwosk::events(file).unwrap(), "ok\nok\nrefused 10 NoPhaseYet\n");
/// ```
pub fn events(file: &[u8]) -> Result<String, Refused> {
    check(phaser_c_events, file, 4096)
}
