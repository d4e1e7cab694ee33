//! The calls of the static library, each behind a safe function. The only module with unsafe code; the
//! crate `bsp29-sys` declares the calls and links the library.
//!
//! `include/bsp29.h` says what each call answers. Each answers 0 or the number of a refusal.

#![allow(unsafe_code)]

use crate::Refusal;
use bsp29_sys::*;
use std::mem::MaybeUninit;

/// The words of a map record.
pub(crate) type MapWords = [u32; MAP_WORDS];
/// The words of a hull.
pub(crate) type HullWords = [u64; HULL_WORDS];
/// The words of body sizes.
pub(crate) type SizesWords = [u64; SIZES_WORDS];
/// Two points, one after the other.
pub(crate) type Segment = [f32; 6];

/// What a call answered, once it says 0.
#[inline]
fn answered<T>(status: u32, value: T) -> Result<T, Refusal> {
    if status == 0 {
        Ok(value)
    } else {
        Err(Refusal::from_number(status))
    }
}

/// What is made of the words of an answer, once a call says 0. A refusal leaves the words unwritten, and they
/// are not looked at.
///
/// # Safety
///
/// `status` is that of a call which was lent `words`, and whose answer has as many words as they are: such a
/// call is proved to write every one of them where it answers 0.
#[inline]
unsafe fn whole<W, T>(
    status: u32,
    words: &MaybeUninit<W>,
    of: impl FnOnce(&W) -> T,
) -> Result<T, Refusal> {
    if status == 0 {
        // SAFETY: all words were written, as the caller says; any word is a number.
        Ok(of(unsafe { words.assume_init_ref() }))
    } else {
        Err(Refusal::from_number(status))
    }
}

/// `bsp_load`: the map record.
#[inline]
pub(crate) fn load(file: &[u8]) -> Result<MapWords, Refusal> {
    let mut map = [0; MAP_WORDS];
    // SAFETY: each pointer goes with the length of its slice, and what is written is borrowed by this
    // call alone; the library is proved to stay within the slices, whatever they hold.
    let status = unsafe { bsp_load(file.as_ptr(), file.len(), map.as_mut_ptr(), map.len()) };
    answered(status, map)
}

/// `bsp_load_place`: the refusal's number, the section, the record and the byte; zeros where the file loads.
#[inline]
pub(crate) fn load_place(file: &[u8]) -> [u64; PLACE_WORDS] {
    let mut out = [0; PLACE_WORDS];
    // SAFETY: as in `load`. The list has as many words as the call asks for, so it refuses nothing.
    unsafe { bsp_load_place(file.as_ptr(), file.len(), out.as_mut_ptr(), out.len()) };
    out
}

/// `bsp_version`: the version of the library that is linked.
#[inline]
pub(crate) fn version() -> u32 {
    // SAFETY: it takes nothing.
    unsafe { bsp_version() }
}

/// `bsp_record`: the words of a record.
#[inline]
pub(crate) fn record(
    file: &[u8],
    map: &MapWords,
    section: u32,
    index: u64,
) -> Result<[u64; RECORD_WORDS], Refusal> {
    let mut out = [0; RECORD_WORDS];
    // SAFETY: as in `load`.
    let status = unsafe {
        bsp_record(
            file.as_ptr(),
            file.len(),
            map.as_ptr(),
            map.len(),
            section,
            index,
            out.as_mut_ptr(),
            out.len(),
        )
    };
    answered(status, out)
}

/// `bsp_texture_frame`: the number in the file of a frame.
#[inline]
pub(crate) fn texture_frame(
    file: &[u8],
    map: &MapWords,
    number: u64,
    group: u32,
    place: u64,
) -> Result<u64, Refusal> {
    let mut out = [0; 1];
    // SAFETY: as in `load`.
    let status = unsafe {
        bsp_texture_frame(
            file.as_ptr(),
            file.len(),
            map.as_ptr(),
            map.len(),
            number,
            group,
            place,
            out.as_mut_ptr(),
            out.len(),
        )
    };
    answered(status, out[0])
}

/// `bsp_texture_static`: the number in the file of a static texture.
#[inline]
pub(crate) fn texture_static(file: &[u8], map: &MapWords, number: u64) -> Result<u64, Refusal> {
    let mut out = [0; 1];
    // SAFETY: as in `load`.
    let status = unsafe {
        bsp_texture_static(
            file.as_ptr(),
            file.len(),
            map.as_ptr(),
            map.len(),
            number,
            out.as_mut_ptr(),
            out.len(),
        )
    };
    answered(status, out[0])
}

/// `bsp_texture`: the words of a texture.
#[inline]
pub(crate) fn texture(
    file: &[u8],
    map: &MapWords,
    index: u64,
) -> Result<[u64; TEXTURE_WORDS], Refusal> {
    let mut out = [0; TEXTURE_WORDS];
    // SAFETY: as in `load`.
    let status = unsafe {
        bsp_texture(
            file.as_ptr(),
            file.len(),
            map.as_ptr(),
            map.len(),
            index,
            out.as_mut_ptr(),
            out.len(),
        )
    };
    answered(status, out)
}

/// `bsp_count`: how many records a section has.
#[inline]
pub(crate) fn count(map: &MapWords, section: u32) -> Result<u64, Refusal> {
    let mut out = [0; 1];
    // SAFETY: as in `load`.
    let status =
        unsafe { bsp_count(map.as_ptr(), map.len(), section, out.as_mut_ptr(), out.len()) };
    answered(status, out[0])
}

/// `bsp_entities`: offset and length of the entity text.
#[inline]
pub(crate) fn entities(file: &[u8], map: &MapWords) -> Result<[u64; 2], Refusal> {
    let mut out = [0; 2];
    // SAFETY: as in `load`.
    let status = unsafe {
        bsp_entities(
            file.as_ptr(),
            file.len(),
            map.as_ptr(),
            map.len(),
            out.as_mut_ptr(),
            out.len(),
        )
    };
    answered(status, out)
}

/// `bsp_hull`: the hull of a model.
#[inline]
pub(crate) fn hull(
    file: &[u8],
    map: &MapWords,
    model: u64,
    index: u64,
) -> Result<HullWords, Refusal> {
    let mut hull = [0; HULL_WORDS];
    // SAFETY: as in `load`.
    let status = unsafe {
        bsp_hull(
            file.as_ptr(),
            file.len(),
            map.as_ptr(),
            map.len(),
            model,
            index,
            hull.as_mut_ptr(),
            hull.len(),
        )
    };
    answered(status, hull)
}

/// `bsp_body_sizes`: the body sizes of a file.
#[inline]
pub(crate) fn body_sizes(bytes: &[u8]) -> Result<SizesWords, Refusal> {
    let mut sizes = [0; SIZES_WORDS];
    // SAFETY: as in `load`.
    let status =
        unsafe { bsp_body_sizes(bytes.as_ptr(), bytes.len(), sizes.as_mut_ptr(), sizes.len()) };
    answered(status, sizes)
}

/// `bsp_hull_sized`: the hull of a model with these body sizes.
#[inline]
pub(crate) fn hull_sized(
    file: &[u8],
    map: &MapWords,
    sizes: &SizesWords,
    model: u64,
    index: u64,
) -> Result<HullWords, Refusal> {
    let mut hull = [0; HULL_WORDS];
    // SAFETY: as in `load`.
    let status = unsafe {
        bsp_hull_sized(
            file.as_ptr(),
            file.len(),
            map.as_ptr(),
            map.len(),
            sizes.as_ptr(),
            sizes.len(),
            model,
            index,
            hull.as_mut_ptr(),
            hull.len(),
        )
    };
    answered(status, hull)
}

/// `bsp_box`: the hull of a box.
#[inline]
pub(crate) fn hull_of_box(bounds: &Segment) -> Result<HullWords, Refusal> {
    let mut hull = [0; HULL_WORDS];
    // SAFETY: as in `load`.
    let status = unsafe { bsp_box(bounds.as_ptr(), bounds.len(), hull.as_mut_ptr(), hull.len()) };
    answered(status, hull)
}

/// `bsp_hull_check`: the hull with the size of its tree.
#[inline]
pub(crate) fn hull_check(
    file: &[u8],
    map: &MapWords,
    hull: &HullWords,
    marks: &mut [u8],
) -> Result<HullWords, Refusal> {
    let mut out = [0; HULL_WORDS];
    // SAFETY: as in `load`.
    let status = unsafe {
        bsp_hull_check(
            file.as_ptr(),
            file.len(),
            map.as_ptr(),
            map.len(),
            hull.as_ptr(),
            hull.len(),
            marks.as_mut_ptr(),
            marks.len(),
            out.as_mut_ptr(),
            out.len(),
        )
    };
    answered(status, out)
}

/// `bsp_contents`: contents code and visits.
#[inline]
pub(crate) fn contents(
    file: &[u8],
    map: &MapWords,
    hull: &HullWords,
    point: &[f32; 3],
) -> Result<[u64; 2], Refusal> {
    let mut out = [0; 2];
    // SAFETY: as in `load`.
    let status = unsafe {
        bsp_contents(
            file.as_ptr(),
            file.len(),
            map.as_ptr(),
            map.len(),
            hull.as_ptr(),
            hull.len(),
            point.as_ptr(),
            point.len(),
            out.as_mut_ptr(),
            out.len(),
        )
    };
    answered(status, out)
}

/// `bsp_find_leaf`: leaf and visits.
#[inline]
pub(crate) fn find_leaf(
    file: &[u8],
    map: &MapWords,
    root: u64,
    point: &[f32; 3],
) -> Result<[u64; 2], Refusal> {
    let mut out = [0; 2];
    // SAFETY: as in `load`.
    let status = unsafe {
        bsp_find_leaf(
            file.as_ptr(),
            file.len(),
            map.as_ptr(),
            map.len(),
            root,
            point.as_ptr(),
            point.len(),
            out.as_mut_ptr(),
            out.len(),
        )
    };
    answered(status, out)
}

/// `bsp_trace`: the words of a trace.
#[inline]
pub(crate) fn trace<T>(
    file: &[u8],
    map: &MapWords,
    hull: &HullWords,
    segment: &Segment,
    of: impl FnOnce(&[u64; TRACE_WORDS]) -> T,
) -> Result<T, Refusal> {
    let mut out = MaybeUninit::<[u64; TRACE_WORDS]>::uninit();
    // SAFETY: as in `load`; the call reads nothing of the list that it is lent for its answer.
    let status = unsafe {
        bsp_trace(
            file.as_ptr(),
            file.len(),
            map.as_ptr(),
            map.len(),
            hull.as_ptr(),
            hull.len(),
            segment.as_ptr(),
            segment.len(),
            out.as_mut_ptr().cast(),
            TRACE_WORDS,
        )
    };
    // SAFETY: as `whole` asks: the list has as many words as the answer.
    unsafe { whole(status, &out, of) }
}

/// `bsp_trace_line`: the words of a whole-line trace.
#[inline]
pub(crate) fn trace_line<T>(
    file: &[u8],
    map: &MapWords,
    hull: &HullWords,
    segment: &Segment,
    of: impl FnOnce(&[u64; LINE_WORDS]) -> T,
) -> Result<T, Refusal> {
    let mut out = MaybeUninit::<[u64; LINE_WORDS]>::uninit();
    // SAFETY: as in `load`; the call reads nothing of the list that it is lent for its answer.
    let status = unsafe {
        bsp_trace_line(
            file.as_ptr(),
            file.len(),
            map.as_ptr(),
            map.len(),
            hull.as_ptr(),
            hull.len(),
            segment.as_ptr(),
            segment.len(),
            out.as_mut_ptr().cast(),
            LINE_WORDS,
        )
    };
    // SAFETY: as `whole` asks: the list has as many words as the answer.
    unsafe { whole(status, &out, of) }
}

/// `bsp_contents_nodes`: the nodes in `list`, and their number.
#[inline]
pub(crate) fn contents_nodes(
    file: &[u8],
    map: &MapWords,
    hull: &HullWords,
    point: &[f32; 3],
    list: &mut [u32],
) -> Result<u64, Refusal> {
    let mut out = [0; 1];
    // SAFETY: as in `load`.
    let status = unsafe {
        bsp_contents_nodes(
            file.as_ptr(),
            file.len(),
            map.as_ptr(),
            map.len(),
            hull.as_ptr(),
            hull.len(),
            point.as_ptr(),
            point.len(),
            list.as_mut_ptr(),
            list.len(),
            out.as_mut_ptr(),
            out.len(),
        )
    };
    answered(status, out[0])
}

/// `bsp_find_leaf_nodes`: the nodes in `list`, and their number.
#[inline]
pub(crate) fn find_leaf_nodes(
    file: &[u8],
    map: &MapWords,
    root: u64,
    point: &[f32; 3],
    list: &mut [u32],
) -> Result<u64, Refusal> {
    let mut out = [0; 1];
    // SAFETY: as in `load`.
    let status = unsafe {
        bsp_find_leaf_nodes(
            file.as_ptr(),
            file.len(),
            map.as_ptr(),
            map.len(),
            root,
            point.as_ptr(),
            point.len(),
            list.as_mut_ptr(),
            list.len(),
            out.as_mut_ptr(),
            out.len(),
        )
    };
    answered(status, out[0])
}

/// `bsp_trace_nodes`: the nodes in `list`, and their number.
#[inline]
pub(crate) fn trace_nodes(
    file: &[u8],
    map: &MapWords,
    hull: &HullWords,
    segment: &Segment,
    list: &mut [u32],
) -> Result<u64, Refusal> {
    let mut out = [0; 1];
    // SAFETY: as in `load`.
    let status = unsafe {
        bsp_trace_nodes(
            file.as_ptr(),
            file.len(),
            map.as_ptr(),
            map.len(),
            hull.as_ptr(),
            hull.len(),
            segment.as_ptr(),
            segment.len(),
            list.as_mut_ptr(),
            list.len(),
            out.as_mut_ptr(),
            out.len(),
        )
    };
    answered(status, out[0])
}

/// `bsp_pvs_team`: the leaves in `list`, and their number.
#[inline]
pub(crate) fn pvs_team(
    file: &[u8],
    map: &MapWords,
    leaves: &[u64],
    leaf_count: u64,
    list: &mut [u32],
) -> Result<u64, Refusal> {
    let mut out = [0; 1];
    // SAFETY: as in `load`.
    let status = unsafe {
        bsp_pvs_team(
            file.as_ptr(),
            file.len(),
            map.as_ptr(),
            map.len(),
            leaves.as_ptr(),
            leaves.len(),
            leaf_count,
            list.as_mut_ptr(),
            list.len(),
            out.as_mut_ptr(),
            out.len(),
        )
    };
    answered(status, out[0])
}

/// `bsp_texture_numbers`: the new numbers in `list`, and how many there are.
pub(crate) fn texture_numbers(
    file: &[u8],
    map: &MapWords,
    list: &mut [u32],
) -> Result<u64, Refusal> {
    let mut out = [0; 1];
    // SAFETY: as in `load`.
    let status = unsafe {
        bsp_texture_numbers(
            file.as_ptr(),
            file.len(),
            map.as_ptr(),
            map.len(),
            list.as_mut_ptr(),
            list.len(),
            out.as_mut_ptr(),
            out.len(),
        )
    };
    answered(status, out[0])
}

/// `bsp_pvs`: the leaves in `list`, and their number.
#[inline]
pub(crate) fn pvs(
    file: &[u8],
    map: &MapWords,
    leaf: u64,
    leaf_count: u64,
    list: &mut [u32],
) -> Result<u64, Refusal> {
    let mut out = [0; 1];
    // SAFETY: as in `load`.
    let status = unsafe {
        bsp_pvs(
            file.as_ptr(),
            file.len(),
            map.as_ptr(),
            map.len(),
            leaf,
            leaf_count,
            list.as_mut_ptr(),
            list.len(),
            out.as_mut_ptr(),
            out.len(),
        )
    };
    answered(status, out[0])
}

/// `bsp_tree_check`: the height of the root's tree.
#[inline]
pub(crate) fn tree_check(
    file: &[u8],
    map: &MapWords,
    table: u32,
    root: u64,
    marks: &mut [u8],
) -> Result<u64, Refusal> {
    let mut out = [0; 1];
    // SAFETY: as in `load`.
    let status = unsafe {
        bsp_tree_check(
            file.as_ptr(),
            file.len(),
            map.as_ptr(),
            map.len(),
            table,
            root,
            marks.as_mut_ptr(),
            marks.len(),
            out.as_mut_ptr(),
            out.len(),
        )
    };
    answered(status, out[0])
}

/// `bsp_contents_box`: the set of contents that a box meets, bit n for the code n.
#[inline]
pub(crate) fn contents_box(
    file: &[u8],
    map: &MapWords,
    hull: &HullWords,
    bounds: &Segment,
    marks: &mut [u8],
) -> Result<u64, Refusal> {
    let mut out = [0; 1];
    // SAFETY: as in `load`.
    let status = unsafe {
        bsp_contents_box(
            file.as_ptr(),
            file.len(),
            map.as_ptr(),
            map.len(),
            hull.as_ptr(),
            hull.len(),
            bounds.as_ptr(),
            bounds.len(),
            marks.as_mut_ptr(),
            marks.len(),
            out.as_mut_ptr(),
            out.len(),
        )
    };
    answered(status, out[0])
}

/// `bsp_accept`: whether a map may go on the rota.
#[inline]
pub(crate) fn accept(file: &[u8], map: &MapWords, marks: &mut [u8]) -> Result<(), Refusal> {
    // SAFETY: as in `load`.
    let status = unsafe {
        bsp_accept(
            file.as_ptr(),
            file.len(),
            map.as_ptr(),
            map.len(),
            marks.as_mut_ptr(),
            marks.len(),
        )
    };
    answered(status, ())
}

/// `bsp_contents_points`: the codes of the points, a byte each, and how often a node was read.
#[inline]
pub(crate) fn contents_points(
    file: &[u8],
    map: &MapWords,
    hull: &HullWords,
    points: &[[f32; 3]],
    list: &mut [u8],
) -> Result<u64, Refusal> {
    let mut out = [0; 1];
    // SAFETY: as in `load`; so many points are three times so many floats, one after the other.
    let status = unsafe {
        bsp_contents_points(
            file.as_ptr(),
            file.len(),
            map.as_ptr(),
            map.len(),
            hull.as_ptr(),
            hull.len(),
            points.as_ptr().cast(),
            3 * points.len(),
            list.as_mut_ptr(),
            list.len(),
            out.as_mut_ptr(),
            out.len(),
        )
    };
    answered(status, out[0])
}

/// `bsp_order`: the nodes in `list`, and their number.
#[inline]
pub(crate) fn order(
    file: &[u8],
    map: &MapWords,
    (table, root): (u32, u64),
    marks: &mut [u8],
    list: &mut [i32],
) -> Result<u64, Refusal> {
    let mut out = [0; 1];
    // SAFETY: as in `load`.
    let status = unsafe {
        bsp_order(
            file.as_ptr(),
            file.len(),
            map.as_ptr(),
            map.len(),
            table,
            root,
            marks.as_mut_ptr(),
            marks.len(),
            list.as_mut_ptr(),
            list.len(),
            out.as_mut_ptr(),
            out.len(),
        )
    };
    answered(status, out[0])
}

/// `bsp_order_contents`: the contents' code, and visits.
#[inline]
pub(crate) fn order_contents(
    file: &[u8],
    map: &MapWords,
    list: &[i32],
    root: u64,
    point: &[f32; 3],
) -> Result<[u64; 2], Refusal> {
    let mut out = [0; 2];
    // SAFETY: as in `load`.
    let status = unsafe {
        bsp_order_contents(
            file.as_ptr(),
            file.len(),
            map.as_ptr(),
            map.len(),
            list.as_ptr(),
            list.len(),
            root,
            point.as_ptr(),
            point.len(),
            out.as_mut_ptr(),
            out.len(),
        )
    };
    answered(status, out)
}

/// `bsp_order_trace`: the trace's words.
#[inline]
pub(crate) fn order_trace<T>(
    file: &[u8],
    map: &MapWords,
    list: &[i32],
    root: u64,
    segment: &Segment,
    of: impl FnOnce(&[u64; TRACE_WORDS]) -> T,
) -> Result<T, Refusal> {
    let mut out = MaybeUninit::<[u64; TRACE_WORDS]>::uninit();
    // SAFETY: as in `load`; the call reads nothing of the list that it is lent for its answer.
    let status = unsafe {
        bsp_order_trace(
            file.as_ptr(),
            file.len(),
            map.as_ptr(),
            map.len(),
            list.as_ptr(),
            list.len(),
            root,
            segment.as_ptr(),
            segment.len(),
            out.as_mut_ptr().cast(),
            TRACE_WORDS,
        )
    };
    // SAFETY: as `whole` asks: the list has as many words as the answer.
    unsafe { whole(status, &out, of) }
}

/// `bsp_made_up`: the file of a made-up map at the front of `buffer`, and its length.
pub(crate) fn made_up(seed: u32, nodes: u64, buffer: &mut [u8]) -> Result<u64, Refusal> {
    let mut out = [0; 1];
    // SAFETY: as in `load`.
    let status = unsafe {
        bsp_made_up(seed, nodes, buffer.as_mut_ptr(), buffer.len(), out.as_mut_ptr(), out.len())
    };
    answered(status, out[0])
}
