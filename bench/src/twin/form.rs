//! The two forms of an image: document 01's, form 1, and document 02's, form 2: "Image form 2 has begin and end of 32 bits each and 16 zero bits at a record's
//! end: 480 bits, 961 cells in all, form number 2 in cell 0."
use super::bits::{BitReader, BitWriter};
use super::layout::{self, record, Record, OPENINGS, PLACES};
use super::soundness::cells_sound;
use super::Refusal;

/// A form: its number, in how many cells a record lies, and how many bits a begin and an end have.
pub struct Form<const NUMBER: u32, const RECORD_CELLS: usize, const BOUND: u32>;

pub type Old = Form<1, 14, 24>;
pub type New = Form<2, 15, 32>;

/// What an image holds: the cells of tables up to the openings.
pub type Held = [u32; OPENINGS];
pub const NOTHING_HELD: Held = [0; OPENINGS];

/// "used 1, name 12 x 6, owner 3, private 1, species 3, begin .., end .., then 32 segment numbers of 10 bits": how many bits each has.
const FLAG: u32 = 1;
const SYMBOL: u32 = 6;
const OWNER: u32 = 3;
const SPECIES: u32 = 3;
const SEGMENT: u32 = 10;

/// So many symbols and segment numbers are together of 64 bits at most.
const SYMBOLS_AT_ONCE: usize = 6;
const SEGMENTS_AT_ONCE: usize = 4;

impl<const NUMBER: u32, const RECORD_CELLS: usize, const BOUND: u32> Form<NUMBER, RECORD_CELLS, BOUND> {
    pub const LENGTH: usize = 1 + PLACES * RECORD_CELLS;
    /// The greatest begin or end that has room.
    pub const GREATEST_END: u32 = u32::MAX >> (32 - BOUND);
    /// The zero bits at a record's end: what its fields leave of the cells.
    const SPARE: u32 =
        32 * RECORD_CELLS as u32 - (FLAG + 12 * SYMBOL + OWNER + FLAG + SPECIES + 2 * BOUND + 32 * SEGMENT);

    /// Writes what sound tables hold into an image of this form's length. No begin and no end may be greater than the form's.
    #[inline(always)]
    pub fn write(tables: &[u32], image: &mut [u32]) {
        // "Cell 0: form 8 bits .., number of segments 11 bits, 13 zero bits."
        image[0] = NUMBER << 24 | tables[0] << 13;
        for (filed, packed) in layout::records(tables).zip(image[1..].chunks_exact_mut(RECORD_CELLS)) {
            if filed[record::USED] == 0 {
                packed.fill(0);
            } else {
                Self::pack(filed, packed.try_into().unwrap());
            }
        }
    }

    fn pack(filed: &Record, packed: &mut [u32; RECORD_CELLS]) {
        let mut bits = BitWriter::new(packed);
        bits.put(FLAG, filed[record::USED].into());
        for symbols in filed[record::NAME].chunks_exact(SYMBOLS_AT_ONCE) {
            bits.put_all(SYMBOL, symbols);
        }
        bits.put(OWNER, filed[record::OWNER].into());
        bits.put(FLAG, filed[record::PRIVATE].into());
        bits.put(SPECIES, filed[record::SPECIES].into());
        bits.put_all(BOUND, &filed[record::BEGIN..=record::END]);
        for segments in filed[record::SEGMENTS].chunks_exact(SEGMENTS_AT_ONCE) {
            bits.put_all(SEGMENT, segments);
        }
        bits.put(Self::SPARE, 0);
    }

    /// Reads an image of any length into cells that hold nothing yet, and judges it beside a store of so many cells. Nothing is open in what it holds, so its
    /// records alone are judged.
    #[inline(always)]
    pub fn read(image: &[u32], store_cells: usize, held: &mut Held) -> Result<(), Refusal> {
        if image.len() != Self::LENGTH || image[0] >> 24 != NUMBER || image[0] & 0x1FFF != 0 {
            return Err(Refusal::Image);
        }
        held[0] = image[0] >> 13 & 0x7FF;
        for (filed, packed) in layout::records_mut(held).zip(image[1..].chunks_exact(RECORD_CELLS)) {
            // "an unused record is all zero"
            if packed.iter().any(|&cell| cell != 0) && !Self::unpack(packed.try_into().unwrap(), filed) {
                return Err(Refusal::Image);
            }
        }
        if !cells_sound(held, store_cells) {
            return Err(Refusal::Image);
        }
        Ok(())
    }

    /// Whether the bits at the record's end are zero.
    fn unpack(packed: &[u32; RECORD_CELLS], filed: &mut Record) -> bool {
        let mut bits = BitReader::new(packed);
        filed[record::USED] = bits.take(FLAG) as u32;
        for symbols in filed[record::NAME].chunks_exact_mut(SYMBOLS_AT_ONCE) {
            bits.take_all(SYMBOL, symbols);
        }
        filed[record::OWNER] = bits.take(OWNER) as u32;
        filed[record::PRIVATE] = bits.take(FLAG) as u32;
        filed[record::SPECIES] = bits.take(SPECIES) as u32;
        bits.take_all(BOUND, &mut filed[record::BEGIN..=record::END]);
        for segments in filed[record::SEGMENTS].chunks_exact_mut(SEGMENTS_AT_ONCE) {
            bits.take_all(SEGMENT, segments);
        }
        // no bits are no number that could be taken
        Self::SPARE == 0 || bits.take(Self::SPARE) == 0
    }
}
