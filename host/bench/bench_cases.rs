//! The cases of document 01 that a command can be, worked out with the plain list.

use crate::bench_line::Command;
use crate::plain_list::PlainList;
use crate::reference_record::is_point;

/// What a command meets. A hole is an empty position before the one where the point is found.
#[derive(Clone, Copy, Debug, PartialEq, Eq)]
pub enum Case {
    Address,
    Update,
    UpdateBehindHole,
    NoPerch,
    PutWithinReach,
    PutBeyondReach,
    Found,
    FoundBehindHole,
    NotFound,
    RemovalLeavesReach,
    RemovalLowersReach,
    RemovalOfLastPoint,
    RemovalNotFound,
}

impl Case {
    pub const ALL: [Case; 13] = [
        Case::Address,
        Case::Update,
        Case::UpdateBehindHole,
        Case::NoPerch,
        Case::PutWithinReach,
        Case::PutBeyondReach,
        Case::Found,
        Case::FoundBehindHole,
        Case::NotFound,
        Case::RemovalLeavesReach,
        Case::RemovalLowersReach,
        Case::RemovalOfLastPoint,
        Case::RemovalNotFound,
    ];
}

/// Carries the command out on the plain list and says which case it was.
pub fn feed(list: &mut PlainList, command: Command) -> Case {
    if !is_point(command.point()) {
        return Case::Address;
    }
    match command {
        Command::Put { point, value } => feed_put(list, point, value),
        Command::Lookup { point } => match list.row(point) {
            None => Case::NotFound,
            Some(_) if is_behind_hole(list, point) => Case::FoundBehindHole,
            Some(_) => Case::Found,
        },
        Command::Removal { point } => {
            let reach = list.largest_index();
            match list.remove(point) {
                None => Case::RemovalNotFound,
                Some(0) => Case::RemovalOfLastPoint,
                Some(after) if after < reach => Case::RemovalLowersReach,
                Some(_) => Case::RemovalLeavesReach,
            }
        }
    }
}

fn feed_put(list: &mut PlainList, point: u32, value: u32) -> Case {
    let stored = list.row(point).is_some();
    let behind_hole = is_behind_hole(list, point);
    let reach = list.largest_index();
    match list.put(point, value) {
        None => Case::NoPerch,
        Some(_) if stored && behind_hole => Case::UpdateBehindHole,
        Some(_) if stored => Case::Update,
        Some((_, index)) if index > reach => Case::PutBeyondReach,
        Some(_) => Case::PutWithinReach,
    }
}

/// Whether the point is stored and a position before its place is empty.
fn is_behind_hole(list: &PlainList, point: u32) -> bool {
    let (Some(row), Some(place)) = (list.row(point), list.free_place(point)) else {
        return false;
    };
    list.index_of(point, place) < list.index_of(point, row.place)
}
