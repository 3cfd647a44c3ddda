//! Erases a partition and does not look at the answer.
extern crate sciambrunola;

pub fn forget(image: &[u8], cells: &mut [u32], marks: &[u32], context: &mut sciambrunola::Context) {
    sciambrunola::erase(image, cells, marks, context, 0);
}
