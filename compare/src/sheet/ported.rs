//! What the port prints for a sheet, through its C interface.

use crate::port;
use crate::random::Random;

/// The bytes that the port is lent for what it prints.
pub const ROOM: usize = 6_000;

/// What the port prints. Another number than 0, or a byte written where none may be, is a fault and said.
pub fn printed(text: &[u8], random: &mut Random) -> Result<Vec<u8>, String> {
    if random.chance(10) {
        lent_wrongly(text, random)?;
    }
    let lent: Vec<u8> = (0..ROOM).map(|_| random.word() as u8).collect();
    let mut out = lent.clone();
    let mut written = [random.word()];
    let returned = port::plan_sheet(&mut out, &mut written, text);
    let length = written[0] as usize;
    if returned != 0 {
        return Err(format!("returned {returned}"));
    }
    if length > ROOM {
        return Err(format!("wrote {length} bytes"));
    }
    if out[length..] != lent[length..] {
        return Err("a byte behind what is printed was written".to_string());
    }
    out.truncate(length);
    Ok(out)
}

/// Slices of another length than asked for: 100, and nothing is written.
fn lent_wrongly(text: &[u8], random: &mut Random) -> Result<(), String> {
    let (room, words) = random.pick(&[(ROOM - 1, 1), (ROOM + 1, 1), (0, 1), (ROOM, 0), (ROOM, 2), (5, 3)]);
    let lent: Vec<u8> = (0..room).map(|_| random.word() as u8).collect();
    let counts: Vec<u64> = (0..words).map(|_| random.word()).collect();
    let (mut out, mut written) = (lent.clone(), counts.clone());
    let returned = port::plan_sheet(&mut out, &mut written, text);
    if returned != 100 || out != lent || written != counts {
        return Err(format!("with {room} bytes and {words} words for its answer it returned {returned}"));
    }
    Ok(())
}
