//! A stream of images: its bytes, and every way in which it can end early.

use image::stream::{put, Images};
use image::tree::most;

/// The images of a stream, and whether it ended as it should.
fn images(bytes: &[u8]) -> (Vec<Vec<u8>>, bool) {
    let mut found = vec![];
    for image in Images::new(bytes) {
        match image {
            Ok(image) => found.push(image),
            Err(_) => return (found, false),
        }
    }
    (found, true)
}

#[test]
fn a_stream_is_its_bytes() {
    let mut stream = vec![];
    put(&mut stream, b"BVN").unwrap();
    put(&mut stream, b"").unwrap();
    put(&mut stream, &[7; 258]).unwrap();
    assert_eq!(stream[..15], [0, 0, 0, 3, b'B', b'V', b'N', 0, 0, 0, 0, 0, 0, 1, 2]);
    assert_eq!(stream.len(), 15 + 258);
    assert_eq!(images(&stream), (vec![b"BVN".to_vec(), vec![], vec![7; 258]], true));
}

#[test]
fn every_cut_is_noticed() {
    let stream = [0, 0, 0, 2, 1, 2, 0, 0, 0, 3, 3, 4, 5];
    for length in 0..=stream.len() {
        let (found, whole) = images(&stream[..length]);
        assert_eq!(whole, [0, 6, 13].contains(&length), "{length}");
        assert_eq!(found.len(), if length < 6 { 0 } else { 1 + length / 13 }, "{length}");
    }
}

#[test]
fn of_a_long_image_no_more_is_kept_than_shows_it() {
    let mut stream = vec![];
    put(&mut stream, &vec![0; 100_000]).unwrap();
    put(&mut stream, b"next").unwrap();
    assert_eq!(images(&stream), (vec![vec![0; most::BYTES + 1], b"next".to_vec()], true));
    assert_eq!(images(&stream[..90_000]), (vec![], false));
}
