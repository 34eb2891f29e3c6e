//! Numbers in a row of bits, "most significant first".

const CELL_BITS: usize = u32::BITS as usize;

/// The cells that these numbers fill, each in so many bits.
pub fn packed(numbers: &[u32], widths: &[u32]) -> Vec<u32> {
    let all_bits: u32 = widths.iter().sum();
    let mut cells = vec![0; (all_bits / u32::BITS) as usize];
    let mut bit = 0;
    for (&number, &width) in numbers.iter().zip(widths) {
        for place in (0..width).rev() {
            cells[bit / CELL_BITS] |= (number >> place & 1) << (CELL_BITS - 1 - bit % CELL_BITS);
            bit += 1;
        }
    }
    cells
}

/// The numbers that these cells hold, each in so many bits.
pub fn unpacked(cells: &[u32], widths: &[u32]) -> Vec<u32> {
    let mut bits = cells.iter().flat_map(|&cell| (0..u32::BITS).rev().map(move |place| cell >> place & 1));
    let mut number = |&width: &u32| bits.by_ref().take(width as usize).fold(0, |number, bit| number << 1 | bit);
    widths.iter().map(&mut number).collect()
}

#[cfg(test)]
mod tests {
    use super::*;

    #[test]
    fn most_significant_first() {
        let (numbers, widths) = ([1, 0, 0x1234_5678, 0xABC, 3], [4, 4, 32, 20, 4]);
        let cells = packed(&numbers, &widths);
        assert_eq!(cells, [0x1012_3456, 0x7800_ABC3]);
        assert_eq!(unpacked(&cells, &widths), numbers);
    }

    #[test]
    fn whole_cells_of_ones() {
        assert_eq!(packed(&[u32::MAX, 0, u32::MAX], &[32, 32, 32]), [u32::MAX, 0, u32::MAX]);
        assert_eq!(unpacked(&[u32::MAX, 0, u32::MAX], &[32, 16, 16, 31, 1]), [u32::MAX, 0, 0, u32::MAX >> 1, 1]);
    }
}
