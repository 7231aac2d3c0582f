//! Random cases of the objects.

use super::{images, numbers, values};
use crate::{
    case::Case,
    model::{
        header::{Header, TYPES},
        layout, Flash,
    },
    op::{Layer, Op, Place, Shape},
    random::Random,
};

pub fn make(r: &mut Random) -> Case {
    let op = r.pick(&Op::of_layer(Layer::Objects));
    let g = numbers::geometry(r);
    let mut case = Case::of(op, g);
    let mut flash = images::image(r, g);
    match op.signature().array {
        Shape::None => by_place(r, &mut case, &flash),
        Shape::Header => by_header(r, &mut case, &flash),
        Shape::Writer => by_writer(r, &mut case, &mut flash),
        Shape::Reader => {
            case.array = values::reader(r, &flash).numbers();
            let most = g.size.min(600);
            let len = numbers::length(r, most);
            case.bytes = if op == Op::ReaderRead { numbers::buffer(r, len) } else { Vec::new() };
        }
        Shape::Metadata => case.array = values::metadata(r, &flash).numbers(),
        _ => {
            let block = numbers::block(r, g);
            case.array = vec![block, images::offset(r, &flash, block)];
        }
    }
    if op.signature().place != Place::Nothing {
        case.image = flash.image;
    }
    case
}

fn by_place(r: &mut Random, case: &mut Case, flash: &Flash) {
    let g = case.geometry;
    let block = numbers::block(r, g);
    let offset = images::offset(r, flash, block);
    match case.op {
        Op::LocationIntoBytes => case.args = vec![numbers::edge(r, g), numbers::edge(r, g)],
        Op::LocationFromBytes => {
            let right = layout::location_len(g) as usize;
            let len = if r.one_in(4) { r.below(10) as usize } else { right };
            case.bytes = r.bytes(len);
        }
        Op::WriterAllocate => case.args = vec![block, images::end(r, flash, block), r.pick(&TYPES)],
        Op::WriteTo => {
            let at = images::end(r, flash, block);
            case.args = vec![block, at, r.pick(&TYPES)];
            let room = g.size.saturating_sub(at).saturating_sub(layout::header_len(g) as u32);
            let len = source_len(r, room);
            case.bytes = r.bytes(len);
        }
        Op::ReaderNew => case.args = vec![block, offset, r.below(2)],
        Op::IteratorNew => case.args = vec![numbers::edge(r, g)],
        _ => case.args = vec![block, offset],
    }
}

/// A length of data for so much room: small, just what fits, a little more.
fn source_len(r: &mut Random, room: u32) -> usize {
    (match r.below(8) {
        0 => room,
        1 => room + 1 + r.below(3),
        2 => room.saturating_sub(r.below(5)),
        3 => 0,
        _ => r.below(20),
    }) as usize
}

fn by_header(r: &mut Random, case: &mut Case, flash: &Flash) {
    let g = case.geometry;
    let mut header = values::header(r, flash);
    match case.op {
        Op::UpdateState => case.args = vec![r.below(4)],
        Op::SetPayloadSize => {
            case.args = vec![values::size(r, g)];
            if r.one_in(2) {
                header.size = layout::unset(g);
            }
        }
        Op::CopyObject | Op::MoveObject => {
            if !r.one_in(4) {
                header = any_finished(r, flash).unwrap_or(header);
            }
            let to = numbers::block(r, g);
            case.args = vec![to, images::end(r, flash, to)];
            if !r.one_in(3) {
                case.args = with_room(r, flash, header.total(g)).unwrap_or(case.args.clone());
            }
        }
        _ => {}
    }
    case.array = header.numbers().to_vec();
}

fn by_writer(r: &mut Random, case: &mut Case, flash: &mut Flash) {
    let w = values::writer(r, flash);
    case.array = values::writer_numbers(r, &w);
    if case.op == Op::WriterWrite {
        let room = w.space(case.geometry).unwrap_or(4);
        let len = source_len(r, room);
        case.bytes = r.bytes(len);
    }
}

/// A listed Finalized object of any block.
fn any_finished(r: &mut Random, flash: &Flash) -> Option<Header> {
    let first = r.below(flash.geometry.count);
    let blocks = (0..flash.geometry.count).map(|i| (first + i) % flash.geometry.count);
    blocks.into_iter().find_map(|block| images::finished(r, flash, block))
}

/// A place behind the objects of a block where so many bytes fit.
pub fn with_room(r: &mut Random, flash: &Flash, total: u64) -> Option<Vec<u32>> {
    let g = flash.geometry;
    let first = r.below(g.count);
    let blocks = (0..g.count).map(|i| (first + i) % g.count);
    let ends = blocks.map(|block| (block, *images::spots(flash, block).last().unwrap()));
    let free = |&(block, at): &(u32, u32)| {
        at as u64 + total <= g.size as u64 && flash.info_read(block, at).is_ok_and(|found| found.is_none())
    };
    ends.into_iter().find(free).map(|(block, at)| vec![block, at])
}
