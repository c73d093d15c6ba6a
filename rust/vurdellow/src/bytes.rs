//! Functions on bytes alone: set 2 converted to set 1, text typed, a recording of a mouse brought back into step.

use crate::raw;
use crate::refusal::{settled, Refusal, Refused};
use crate::Identity;

/// How far a conversion came, refused or not.
#[derive(Clone, Copy, Debug, Default, PartialEq, Eq)]
pub struct Converted {
    /// Bytes of the stream used.
    pub used: usize,
    /// Bytes of the output written.
    pub written: usize,
}

/// Converts scancodes of set 2 to set 1.
///
/// Refused with 22, 23 and 24: what was converted before stays in the output, and the refused code is not used.
///
/// ```
/// use vurdellow::{convert_set2, Refusal};
/// let mut out = [0; 8];
/// let done = convert_set2(&[0x12, 0x1C, 0xF0, 0x1C], &mut out)?;
/// assert_eq!(&out[..done.written], [0x2A, 0x1E, 0x9E]);
/// let refused = convert_set2(&[0x1C, 0xF0], &mut out).unwrap_err();
/// assert_eq!((refused.refusal, refused.done.used), (Refusal::EndsAfterF0, 1));
/// # Ok::<(), vurdellow::Refused<vurdellow::Converted>>(())
/// ```
pub fn convert_set2(stream: &[u8], out: &mut [u8]) -> Result<Converted, Refused<Converted>> {
    let raw::vd_converted { refusal, used, written } = raw::vd_convert_set2(stream, out);
    let done = Converted { used, written };
    settled(Refusal::answered(refusal, 0), done, done)
}

/// Writes the scancodes of set 1 that type an ASCII text, and gives how many they are.
///
/// Refused with 25 and 26, with the output as it was.
///
/// ```
/// use vurdellow::{type_text, Refusal};
/// let mut out = [0; 8];
/// let written = type_text(b"A", &mut out)?;
/// assert_eq!(out[..written], [0x2A, 0x1E, 0x9E, 0xAA]);
/// assert_eq!(type_text(b"\r", &mut out), Err(Refusal::NoKey));
/// # Ok::<(), Refusal>(())
/// ```
pub fn type_text(text: &[u8], out: &mut [u8]) -> Result<usize, Refusal> {
    let raw::vd_written { refusal, written } = raw::vd_type_text(text, out);
    Refusal::answered(refusal, 0).map_or(Ok(written), Err)
}

/// How far a salvage pass came, refused or not.
#[derive(Clone, Copy, Debug, Default, PartialEq, Eq)]
pub struct Salvaged {
    /// Bytes of the recording used; a cut last packet is left.
    pub used: usize,
    /// Bytes written to the packets.
    pub packet_bytes: usize,
    /// Positions written: one for each byte that was dropped.
    pub dropped: usize,
}

/// Brings recorded mouse bytes back into step: whole packets go to `packets`, the positions of the bytes between them to `positions`.
///
/// Refused with 30 if one has no more room: what was written stays, and a pass from byte `used` on goes on.
///
/// ```
/// use vurdellow::{salvage, Identity};
/// let (mut packets, mut positions) = ([0; 16], [0; 16]);
/// let done = salvage(Identity::NoWheel, &[0x01, 0x02, 0x08, 0x03, 0x04], &mut packets, &mut positions)?;
/// assert_eq!(packets[..done.packet_bytes], [0x08, 0x03, 0x04]);
/// assert_eq!(positions[..done.dropped], [0, 1]);
/// # Ok::<(), vurdellow::Refused<vurdellow::Salvaged>>(())
/// ```
pub fn salvage(
    identity: Identity,
    bytes: &[u8],
    packets: &mut [u8],
    positions: &mut [u64],
) -> Result<Salvaged, Refused<Salvaged>> {
    let raw::vd_salvaged { refusal, used, packet_bytes, dropped } =
        raw::vd_salvage(identity.number(), bytes, packets, positions);
    let done = Salvaged { used, packet_bytes, dropped };
    settled(Refusal::answered(refusal, 0), done, done)
}
