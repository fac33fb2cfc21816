//! NumPy's files of arrays.

/// How many bytes stand before the array: room for any numbers.
const FRONT: usize = 128;

/// The first bytes of an array of bytes: frames, rows, columns.
pub fn front(frames: u64, (columns, rows): (usize, usize)) -> Vec<u8> {
    let shape = format!("({frames}, {rows}, {columns})");
    let text = format!("{{'descr': '|u1', 'fortran_order': False, 'shape': {shape}, }}");
    let mut front = b"\x93NUMPY\x01\x00".to_vec();
    front.extend((FRONT as u16 - 10).to_le_bytes());
    front.extend(text.bytes());
    front.resize(FRONT - 1, b' ');
    front.push(b'\n');
    front
}

#[cfg(test)]
mod tests {
    use super::*;

    #[test]
    fn the_first_bytes_have_one_length() {
        for (frames, grid) in [(0, (0, 0)), (u64::MAX, (usize::MAX, usize::MAX))] {
            let front = front(frames, grid);
            assert_eq!((front.len(), front.last()), (128, Some(&b'\n')));
            assert_eq!(front[8..10], [118, 0]);
        }
        let text = front(227, (28, 21));
        assert!(
            text[10..]
                .starts_with(b"{'descr': '|u1', 'fortran_order': False, 'shape': (227, 21, 28), }")
        );
    }
}
