//! Plain OTA bitmaps.

use ohakelm_answers::{Bitmap, Written};

/// Reads a bitmap. The image is a stretch of the message.
pub fn bitmap_read(message: &[u8]) -> Bitmap {
    read_answer(judge(message))
}

/// Writes a bitmap to a lent buffer.
pub fn bitmap_write(width: u32, height: u32, image: &[u8], out: &mut [u8]) -> Written {
    written_answer(write_behind(
        |_: &mut [u8; 0]| {},
        width,
        height,
        image,
        out,
    ))
}

#[inline(always)]
pub fn read_answer(judged: Result<Bitmap, u32>) -> Bitmap {
    match judged {
        Ok(answer) => answer,
        Err(refusal) => Bitmap {
            refusal,
            ..Bitmap::default()
        },
    }
}

#[inline(always)]
pub fn written_answer(written: Result<usize, u32>) -> Written {
    let (refusal, octets) = match written {
        Ok(octets) => (0, octets),
        Err(number) => (number, 0),
    };
    Written {
        refusal,
        place: 0,
        octets,
    }
}

fn judge(message: &[u8]) -> Result<Bitmap, u32> {
    match message.split_first_chunk() {
        Some((header, image)) => judge_parts(*header, image, 4),
        None => Err(2),
    }
}

/// Judges a header and the octets behind it, which start there in the message.
#[inline(always)]
pub fn judge_parts(header: [u8; 4], image: &[u8], start: usize) -> Result<Bitmap, u32> {
    let [info, width, height, depth] = header;
    let (width, height) = (width as u32, height as u32);
    if info != 0 || depth != 1 || !are_sizes(width, height) {
        return Err(15);
    }
    if image.len() != image_octets(width, height) {
        return Err(16);
    }
    Ok(Bitmap {
        refusal: 0,
        place: 0,
        width,
        height,
        black: black(image),
        start,
        length: image.len(),
    })
}

/// Writes a bitmap behind the octets that its kind of message has ahead of it.
#[inline(always)]
pub fn write_behind<const AHEAD: usize>(
    put_ahead: impl FnOnce(&mut [u8; AHEAD]),
    width: u32,
    height: u32,
    image: &[u8],
    out: &mut [u8],
) -> Result<usize, u32> {
    if !are_sizes(width, height) {
        return Err(15);
    }
    if image.len() != image_octets(width, height) {
        return Err(16);
    }
    let octets = AHEAD + 4 + image.len();
    let front = out.get_mut(..octets).ok_or(11u32)?;
    let (ahead, rest) = front.split_first_chunk_mut().ok_or(11u32)?;
    let (header, rest) = rest.split_first_chunk_mut().ok_or(11u32)?;
    put_ahead(ahead);
    *header = [0, width as u8, height as u8, 1];
    rest.copy_from_slice(image);
    Ok(octets)
}

fn are_sizes(width: u32, height: u32) -> bool {
    (8..=248).contains(&width) && width % 8 == 0 && (1..=255).contains(&height)
}

fn image_octets(width: u32, height: u32) -> usize {
    (width / 8 * height) as usize
}

fn black(image: &[u8]) -> u32 {
    let mut words = image.chunks_exact(8);
    let mut black = 0;
    for word in &mut words {
        if let Some(eight) = word.first_chunk() {
            black += u64::from_ne_bytes(*eight).count_ones();
        }
    }
    let rest = words.remainder().iter();
    black + rest.map(|octet| octet.count_ones()).sum::<u32>()
}
