//! "From the old image to the new and back": the operator's two calls that move what an image says into an image of the
//! other form. They are lent neither store nor tables, so refusal 20 is none of theirs.

use crate::cells::form::Form;
use crate::cells::image::Image;
use crate::cells::outline::Unsound;
use crate::rules::refusal::{Answer, Refusal};

/// "A lent image of the wrong length, either one, is 22, and 22 comes before 24. Refusals write nothing. Judge soundness with
/// the store's segment count given as a number."
pub fn move_image(from: Form, to: Form, image: &[u32], other: &mut [u32], segments_there: u32) -> Answer {
    let moved = judged(from, image, segments_there).map_err(|Unsound| Refusal::ImageUnfit)?;
    if other.len() != to.length() {
        return Err(Refusal::ImageUnfit);
    }
    if !moved.fits(to) {
        return Err(Refusal::BoundsTooWide);
    }
    other.copy_from_slice(&moved.cells(to));
    Ok(0)
}

/// What an image says that is sound in its form.
fn judged(form: Form, cells: &[u32], segments_there: u32) -> Result<Image, Unsound> {
    let image = Image::read(form, cells)?;
    image.judged(segments_there)?;
    Ok(image)
}

#[cfg(test)]
mod tests {
    use super::*;
    use crate::cells::fields::record as of_record;
    use crate::cells::form::{Heading, RecordBits, FORM_1, FORM_2};

    /// An image of seven segments with one empty file there.
    fn image_with_a_file_at(form: Form, position: u32) -> Vec<u32> {
        let mut numbers = [0; of_record::COUNT];
        numbers[of_record::USED] = 1;
        numbers[of_record::NAME].fill(1);
        numbers[of_record::BEGIN] = position;
        numbers[of_record::END] = position;
        let mut cells = vec![0; form.length()];
        cells[0] = Heading { form: form.number, segments: 7, zero_bits: 0 }.cell();
        cells[form.cells_of(9)].copy_from_slice(&form.packed_record(&RecordBits::with_zero_bits(numbers)));
        cells
    }

    #[test]
    fn up_and_down() {
        for position in [1, 2, 16_777_215] {
            let [old, new] = [FORM_1, FORM_2].map(|form| image_with_a_file_at(form, position));
            let (mut up, mut down) = (vec![u32::MAX; 961], vec![u32::MAX; 897]);
            assert_eq!(move_image(FORM_1, FORM_2, &old, &mut up, 7), Ok(0));
            assert_eq!(move_image(FORM_2, FORM_1, &new, &mut down, 7), Ok(0));
            assert_eq!((up, down), (new, old));
        }
    }

    #[test]
    fn unfit_comes_before_too_wide() {
        let wide = image_with_a_file_at(FORM_2, 16_777_216);
        let mut unsound = wide.clone();
        unsound[960] = 1;
        let cases = [
            (&wide[..], 897, 7, Refusal::BoundsTooWide),
            (&wide, 897, u32::MAX, Refusal::BoundsTooWide),
            (&wide, 897, 6, Refusal::ImageUnfit),
            (&wide, 896, 7, Refusal::ImageUnfit),
            (&wide, 961, 7, Refusal::ImageUnfit),
            (&wide[..960], 897, 7, Refusal::ImageUnfit),
            (&wide[..897], 897, 7, Refusal::ImageUnfit),
            (&[], 897, 7, Refusal::ImageUnfit),
            (&unsound, 897, 7, Refusal::ImageUnfit),
        ];
        for (image, length, segments_there, refusal) in cases {
            let mut other = vec![5; length];
            assert_eq!(move_image(FORM_2, FORM_1, image, &mut other, segments_there), Err(refusal));
            assert_eq!(other, vec![5; length]);
        }
    }
}
