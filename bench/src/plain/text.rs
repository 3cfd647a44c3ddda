//! Document 02, P2: the text of a map becomes an image.

use super::map::Map;
use super::Refusal;

/// Writes the map that a text says to the front of the image, and answers how many bytes
/// it has: refusals 16 and 1.
#[inline(never)]
pub fn write_map(text: &[u8], image: &mut [u8]) -> Result<usize, Refusal> {
    let mut built = [0; 8 + 8 * 16];
    let ([cells, bound], mut rest) = line(text).ok_or(16_u32)?;
    let (mut partitions, mut fits) = (0, true);
    while !rest.is_empty() {
        let ([first, length, kind, flags], after) = line(rest).ok_or(16_u32)?;
        if let Some(entry) = built[8..].chunks_exact_mut(8).nth(partitions) {
            put_u16(&mut entry[..2], first);
            put_u16(&mut entry[2..4], length);
            entry[4] = kind as u8;
            entry[5] = flags as u8;
        }
        fits &= kind <= 255 && flags <= 255;
        partitions += 1;
        rest = after;
    }
    let bytes = 8 + 8 * partitions;
    if image.len() < bytes {
        return Err(16);
    }
    if partitions > 16 || !fits {
        return Err(1);
    }
    for (place, field) in built.chunks_exact_mut(2).zip([partitions as u16, cells, bound, 8]) {
        put_u16(place, field);
    }
    Map::read(&built[..bytes]).ok_or(1_u32)?;
    image[..bytes].copy_from_slice(&built[..bytes]);
    Ok(bytes)
}

/// The numbers of the line that a text begins with, and what follows the line.
fn line<const N: usize>(mut text: &[u8]) -> Option<([u16; N], &[u8])> {
    let mut numbers = [0; N];
    for (i, number) in numbers.iter_mut().enumerate() {
        let digits = text.iter().take_while(|byte| byte.is_ascii_digit()).count();
        let (word, after) = text.split_at(digits);
        *number = decimal(word)?;
        let end = if i + 1 < N { b' ' } else { b'\n' };
        text = after.strip_prefix(&[end])?;
    }
    Some((numbers, text))
}

/// The number of these digits.
fn decimal(digits: &[u8]) -> Option<u16> {
    let spelled = matches!(digits, [b'0'] | [b'1'..=b'9', ..]) && digits.len() <= 5;
    let number = digits.iter().take(5).fold(0, |sum, byte| 10 * sum + u32::from(byte - b'0'));
    u16::try_from(number).ok().filter(|_| spelled)
}

fn put_u16(place: &mut [u8], number: u16) {
    place.copy_from_slice(&number.to_le_bytes());
}
