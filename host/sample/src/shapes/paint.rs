/// Eight parameters, one over the limit, and accepted: the callers name them all.
#[allow(clippy::too_many_arguments)]
pub fn fill(out: &mut [u8], stride: usize, left: usize, top: usize, width: usize, height: usize, shade: u8, clip: usize) {
    for row in top..top + height {
        for column in left..left + width {
            if column < clip {
                out[row * stride + column] = shade;
            }
        }
    }
}

pub fn invert(out: &mut [u8]) {
    for shade in out.iter_mut() {
        *shade = 255 - *shade;
    }
}

/// The brace in the string is no block.
pub fn legend(shade: u8) -> String {
    format!("{{ shade {shade} }}")
}
