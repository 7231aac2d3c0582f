//! Random cases of the medium.

use super::{images, numbers};
use crate::{
    case::Case,
    geometry::Geometry,
    model::Flash,
    op::{Layer, Op},
    random::Random,
};

pub fn make(r: &mut Random) -> Case {
    let op = r.pick(&Op::of_layer(Layer::Medium));
    let g = numbers::geometry(r);
    let mut case = Case::of(op, g);
    if op == Op::Align {
        case.args = vec![numbers::edge(r, g)];
        return case;
    }
    let flash = if r.one_in(4) { images::image(r, g) } else { noise(r, g) };
    let block = numbers::block(r, g);
    match op {
        Op::Check => {}
        Op::Erase => case.args = vec![block],
        _ => {
            let offset = offset(r, g);
            let rest = g.size.saturating_sub(offset);
            let len =
                if r.one_in(3) { (rest + r.below(3)).saturating_sub(1) as usize } else { numbers::length(r, g.size) };
            case.args = vec![block, offset];
            case.bytes = if op == Op::Read { numbers::buffer(r, len) } else { r.bytes(len) };
        }
    }
    case.image = flash.image;
    case
}

fn offset(r: &mut Random, g: Geometry) -> u32 {
    match r.below(4) {
        0 => numbers::edge(r, g),
        1 => r.below(g.size + 2),
        _ => r.below(g.size / 4 + 1) * 4,
    }
}

/// Any bytes, so that AND shows.
fn noise(r: &mut Random, g: Geometry) -> Flash {
    let mut flash = Flash::erased(g);
    for byte in flash.image.iter_mut().take(2048) {
        if r.one_in(2) {
            *byte = r.byte();
        }
    }
    flash
}
