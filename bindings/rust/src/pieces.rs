//! What a list and a record have in common: the length of the whole, the rest of the front, then pieces of one width.

/// The width of the length at the front, in bytes.
pub(crate) const LENGTH_FIELD: usize = 4;

/// Writes the length of the whole, the rest of the front and the pieces to the beginning of a buffer, and gives these
/// bytes. Nothing, with nothing written, where the buffer is too short or the length does not fit its field.
pub(crate) fn write_pieces<'a, const WIDTH: usize>(
    rest_of_front: &[u8],
    pieces: impl ExactSizeIterator<Item = [u8; WIDTH]>,
    buffer: &'a mut [u8],
) -> Option<&'a [u8]> {
    let front = LENGTH_FIELD + rest_of_front.len();
    let whole = buffer.get_mut(..front + WIDTH * pieces.len())?;
    let length = u32::try_from(whole.len()).ok()?;
    let (front, places) = whole.split_at_mut(front);
    front[..LENGTH_FIELD].copy_from_slice(&length.to_be_bytes());
    front[LENGTH_FIELD..].copy_from_slice(rest_of_front);
    for (place, piece) in places.chunks_exact_mut(WIDTH).zip(pieces) {
        place.copy_from_slice(&piece);
    }
    Some(whole)
}
