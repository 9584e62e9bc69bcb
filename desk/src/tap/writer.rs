//! pcapng and frames, written: what `pcapng.rs` and `frame.rs` read back.

use super::block::OPTION_RESOLUTION;
use super::frame::{Channel, GAL, HIGHEST_LABEL, MPLS};
use super::pcapng::{BYTE_ORDER, ENHANCED_PACKET, INTERFACE, SECTION_HEADER};
use super::ETHERNET;

/// The address of the other end of an MPLS-TP link that is point to point (RFC 7213), and one that
/// is administered locally.
const TO: [u8; 6] = [0x01, 0x00, 0x5e, 0x90, 0x00, 0x00];
const FROM: [u8; 6] = [0x02, 0x00, 0x00, 0x00, 0x00, 0x01];
/// Time to live: of a label that goes on, and of the GAL, which goes no further.
const FAR: u32 = 255;
const NEAR: u32 = 1;
const BOTTOM: u32 = 0x100;

const OPTION_COMMENT: u16 = 1;
const OPTION_INTERFACE: u16 = 2;
const OPTION_APPLICATION: u16 = 4;
const MICROSECONDS: u8 = 6;

/// Appends the frame of a message: the label and the GAL below it, or the GAL alone, and no padding.
/// None if the label has more than 20 bits.
pub fn append_frame(out: &mut Vec<u8>, channel: Channel, message: &[u8]) -> Option<()> {
    let above = match channel {
        Channel::Section => None,
        Channel::Label(label @ 0..=HIGHEST_LABEL) => Some(label << 12 | FAR),
        Channel::Label(_) => return None,
    };
    out.extend_from_slice(&TO);
    out.extend_from_slice(&FROM);
    out.extend_from_slice(&MPLS.to_be_bytes());
    if let Some(entry) = above {
        out.extend_from_slice(&entry.to_be_bytes());
    }
    out.extend_from_slice(&(GAL << 12 | BOTTOM | NEAR).to_be_bytes());
    out.extend_from_slice(message);
    Some(())
}

/// Appends the start of a section: its header and one interface, whose times are microseconds.
pub fn append_start(out: &mut Vec<u8>, application: &str, interface: &str) {
    block(out, u32::from_le_bytes(SECTION_HEADER), |out| {
        out.extend_from_slice(&BYTE_ORDER.to_le_bytes());
        out.extend_from_slice(&[1, 0, 0, 0]);
        // The length of the section is not known.
        out.extend_from_slice(&[0xff; 8]);
        option(out, OPTION_APPLICATION, application.as_bytes());
        end_of_options(out);
    });
    block(out, INTERFACE, |out| {
        out.extend_from_slice(&u32::from(ETHERNET).to_le_bytes());
        // No bound on a frame.
        out.extend_from_slice(&0_u32.to_le_bytes());
        option(out, OPTION_INTERFACE, interface.as_bytes());
        option(out, OPTION_RESOLUTION, &[MICROSECONDS]);
        end_of_options(out);
    });
}

/// Appends a packet with a comment.
pub fn append_packet(out: &mut Vec<u8>, micros: u64, frame: &[u8], comment: &[u8]) {
    let length = (frame.len() as u32).to_le_bytes();
    block(out, ENHANCED_PACKET, |out| {
        out.extend_from_slice(&0_u32.to_le_bytes());
        out.extend_from_slice(&((micros >> 32) as u32).to_le_bytes());
        out.extend_from_slice(&(micros as u32).to_le_bytes());
        out.extend_from_slice(&length);
        out.extend_from_slice(&length);
        out.extend_from_slice(frame);
        pad(out, frame.len());
        option(out, OPTION_COMMENT, comment);
        end_of_options(out);
    });
}

/// A block around a body; its length stands before and behind.
fn block(out: &mut Vec<u8>, kind: u32, body: impl FnOnce(&mut Vec<u8>)) {
    let start = out.len();
    out.extend_from_slice(&kind.to_le_bytes());
    out.extend_from_slice(&[0; 4]);
    body(out);
    let length = ((out.len() - start + 4) as u32).to_le_bytes();
    out.extend_from_slice(&length);
    if let Some(room) = out.get_mut(start + 4..start + 8) {
        room.copy_from_slice(&length);
    }
}

/// An option: a value that is longer than its length can say is cut.
fn option(out: &mut Vec<u8>, code: u16, value: &[u8]) {
    let length = u16::try_from(value.len()).unwrap_or(u16::MAX);
    let value = value.get(..usize::from(length)).unwrap_or(value);
    out.extend_from_slice(&code.to_le_bytes());
    out.extend_from_slice(&length.to_le_bytes());
    out.extend_from_slice(value);
    pad(out, value.len());
}

fn end_of_options(out: &mut Vec<u8>) {
    out.extend_from_slice(&[0; 4]);
}

/// Zeros up to a multiple of four.
fn pad(out: &mut Vec<u8>, length: usize) {
    let zeros = length.next_multiple_of(4) - length;
    out.resize(out.len() + zeros, 0);
}
