//! Plain OTA bitmaps.

use ohakelm_answers::{Bitmap, Written};

use crate::{put_first, refuse, written_answer, Refusal};

/// Octets of a bitmap ahead of its image.
pub const HEADER: usize = 4;

/// Reads a bitmap. The image is a stretch of the message.
pub fn bitmap_read(message: &[u8]) -> Bitmap {
    read_answer(judge(message))
}

/// Writes a bitmap to a lent buffer.
pub fn bitmap_write(width: u32, height: u32, image: &[u8], out: &mut [u8]) -> Written {
    written_answer(write_behind(&[], width, height, image, out))
}

pub fn read_answer(judged: Result<Bitmap, Refusal>) -> Bitmap {
    match judged {
        Ok(answer) => answer,
        Err(refusal) => Bitmap {
            refusal: refusal.number,
            place: refusal.place,
            ..Bitmap::default()
        },
    }
}

pub fn judge(message: &[u8]) -> Result<Bitmap, Refusal> {
    let [info, width, height, depth, image @ ..] = message else {
        return refuse(2);
    };
    let (width, height) = (*width as u32, *height as u32);
    if *info != 0 || *depth != 1 {
        return refuse(15);
    }
    judge_sizes(width, height)?;
    judge_image(width, height, image)?;
    Ok(Bitmap {
        refusal: 0,
        place: 0,
        width,
        height,
        black: black_pixels(width, height, image),
        start: HEADER,
        length: image.len(),
    })
}

/// Writes a bitmap behind the octets that its kind of message has ahead of it.
pub fn write_behind(
    ahead: &[u8],
    width: u32,
    height: u32,
    image: &[u8],
    out: &mut [u8],
) -> Result<usize, Refusal> {
    judge_sizes(width, height)?;
    judge_image(width, height, image)?;
    let header = [0, width as u8, height as u8, 1];
    let message = [ahead, &header, image].concat();
    if message.len() > out.len() {
        return refuse(11);
    }
    put_first(&message, out);
    Ok(message.len())
}

fn judge_sizes(width: u32, height: u32) -> Result<(), Refusal> {
    let good_width = (8..=248).contains(&width) && width % 8 == 0;
    let good_height = (1..=255).contains(&height);
    if good_width && good_height {
        Ok(())
    } else {
        refuse(15)
    }
}

fn judge_image(width: u32, height: u32, image: &[u8]) -> Result<(), Refusal> {
    if image.len() == (width / 8 * height) as usize {
        Ok(())
    } else {
        refuse(16)
    }
}

/// Counts pixel by pixel, as the rules define them.
fn black_pixels(width: u32, height: u32, image: &[u8]) -> u32 {
    let mut black = 0;
    for row in 0..height {
        for column in 0..width {
            let octet = image[(row * (width / 8) + column / 8) as usize];
            let weight = 128 >> (column % 8);
            if octet & weight != 0 {
                black += 1;
            }
        }
    }
    black
}
