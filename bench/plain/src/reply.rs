//! Reply lines.

use crate::service::Handle;
use std::collections::TryReserveError;

/// What a command was answered with.
#[derive(Clone, Copy, Debug)]
pub enum Reply {
    Handle(Handle),
    Locked,
    NotRegistered,
    Full,
    WrongPattern,
    HasOwners,
    NoOwners,
    PortsAttached,
    Released,
    NotOwned,
    NoHandle,
    Count(usize),
    /// A listing, whose line is written by `write_list`.
    Listed,
}

/// No reply line but a listing is longer.
pub const LONGEST: usize = "handle 18446744073709551615 18446744073709551615\n".len();

impl Reply {
    pub fn handle(self) -> Option<Handle> {
        match self {
            Reply::Handle(handle) => Some(handle),
            _ => None,
        }
    }

    /// Appends the reply line. `output` has room for it.
    pub fn write(self, output: &mut Vec<u8>) {
        let line: &[u8] = match self {
            Reply::Handle(Handle::Node(key) | Handle::Port(_, key)) => {
                return write_numbers(b"handle", &[key.slot as u64, key.ticket], output);
            }
            Reply::Count(count) => return write_numbers(b"count", &[count as u64], output),
            Reply::Listed => return,
            Reply::Locked => b"locked\n",
            Reply::NotRegistered => b"not-registered\n",
            Reply::Full => b"full\n",
            Reply::WrongPattern => b"wrong-pattern\n",
            Reply::HasOwners => b"has-owners\n",
            Reply::NoOwners => b"no-owners\n",
            Reply::PortsAttached => b"ports-attached\n",
            Reply::Released => b"released\n",
            Reply::NotOwned => b"not-owned\n",
            Reply::NoHandle => b"no-handle\n",
        };
        output.extend_from_slice(line);
    }
}

/// Appends the line of a listing of `len` ids, or nothing where there is no memory for it.
pub fn write_list(
    ids: impl Iterator<Item = u128>,
    len: usize,
    output: &mut Vec<u8>,
) -> Result<(), TryReserveError> {
    const LONGEST_ID: usize = 1 + u128::BITS as usize / 4;
    output.try_reserve("list\n".len() + len * LONGEST_ID)?;
    output.extend_from_slice(b"list");
    for id in ids {
        output.push(b' ');
        write_hexadecimal(id, output);
    }
    output.push(b'\n');
    Ok(())
}

/// Appends a line of a word and numbers, of which the last digit is written first.
#[inline(always)]
fn write_numbers<const N: usize>(word: &[u8], numbers: &[u64; N], output: &mut Vec<u8>) {
    let mut line = [0; LONGEST];
    let mut start = LONGEST - 1;
    line[start] = b'\n';
    for &number in numbers.iter().rev() {
        let mut rest = number;
        loop {
            start -= 1;
            line[start] = b'0' + (rest % 10) as u8;
            rest /= 10;
            if rest == 0 {
                break;
            }
        }
        start -= 1;
        line[start] = b' ';
    }
    start -= word.len();
    line[start..start + word.len()].copy_from_slice(word);
    output.extend_from_slice(&line[start..]);
}

/// Appends the id without its leading zeros.
fn write_hexadecimal(id: u128, output: &mut Vec<u8>) {
    const LONGEST: usize = u128::BITS as usize / 4;
    let leading_zeros = (id.leading_zeros() / 4).min(LONGEST as u32 - 1);
    let shifted = id << (4 * leading_zeros);
    output.extend_from_slice(&sixteen_digits((shifted >> 64) as u64));
    output.extend_from_slice(&sixteen_digits(shifted as u64));
    output.truncate(output.len() - leading_zeros as usize);
}

/// The digits of a number, eight at a time: each in a byte of its own, then those above 9 moved up to the letters.
fn sixteen_digits(number: u64) -> [u8; 16] {
    let mut digits = [0; 16];
    digits[..8].copy_from_slice(&eight_digits((number >> 32) as u32));
    digits[8..].copy_from_slice(&eight_digits(number as u32));
    digits
}

fn eight_digits(number: u32) -> [u8; 8] {
    const ONES: u64 = 0x0101_0101_0101_0101;
    let mut nibbles = u64::from(number);
    nibbles = (nibbles | nibbles << 16) & 0x0000_ffff_0000_ffff;
    nibbles = (nibbles | nibbles << 8) & 0x00ff_00ff_00ff_00ff;
    nibbles = (nibbles | nibbles << 4) & 0x0f0f_0f0f_0f0f_0f0f;
    let above_nine = (nibbles + 6 * ONES) >> 4 & ONES;
    (nibbles + ONES * u64::from(b'0') + above_nine * u64::from(b'a' - b'0' - 10)).to_be_bytes()
}
