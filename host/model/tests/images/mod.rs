//! Images written by hand, byte by byte.

use model::{Controller, STATE_BYTES};

/// A bay's flags where nothing is in it: seven levels high, the rest 0.
const EMPTY: [u8; 14] = [1, 1, 1, 1, 1, 1, 1, 0, 0, 0, 0, 0, 0, 0];

pub fn fresh() -> [u8; STATE_BYTES] {
    let mut image = [0; STATE_BYTES];
    image[0] = 4;
    image[13..27].copy_from_slice(&EMPTY);
    image[27..41].copy_from_slice(&EMPTY);
    image
}

/// The fresh image with these bytes in these places.
pub fn with(places: &[(usize, u8)]) -> [u8; STATE_BYTES] {
    let mut image = fresh();
    places.iter().for_each(|&(place, byte)| image[place] = byte);
    image
}

/// The controller that has this image, and gives it back.
pub fn loaded(image: &[u8]) -> Controller {
    let dock = Controller::from_image(image).expect("a fit state");
    assert_eq!(dock.image()[..], *image);
    dock
}
