//! The library agrees in every mode, and a wrong call in any one place is noticed and no other blamed.

use crate::calls::{self, Calls};
use crate::modes::{
    accept, all, bodies, boxes, hand_made, joins, line, loads, made, order, place, points, pvs,
    records, replay, sample, sky, team, textures, tree, walks,
};
use crate::report::board::{Board, Plan};
use crate::report::coverage;

const PLAN: Plan = Plan { cases: 250, from: 0, seed: 7, quick: true };

type Compare = fn(&Calls, &Plan) -> Board;

const MODES: [Compare; 18] = [
    records::compare,
    hand_made::compare,
    walks::compare,
    tree::compare,
    boxes::compare,
    bodies::compare,
    accept::compare,
    points::compare,
    line::compare,
    order::compare,
    textures::compare,
    pvs::compare,
    team::compare,
    loads::compare,
    place::compare,
    made::compare,
    sky::compare,
    joins::compare,
];

#[test]
fn the_library_agrees() {
    for compare in MODES {
        let board = compare(&Calls::linked(), &PLAN);
        assert!(!board.lines().is_empty());
        assert_eq!(board.blamed(), Vec::<String>::new());
    }
}

#[test]
fn every_refusal_of_every_call_is_met() {
    let board = all::compare(&Calls::linked(), &PLAN);
    assert_eq!(board.blamed(), Vec::<String>::new());
    assert_eq!(coverage::faults(&board), coverage::Faults::default());
}

#[test]
fn a_refusal_not_met_is_noticed() {
    let board = records::compare(&Calls::linked(), &PLAN);
    let faults = coverage::faults(&board);
    assert!(faults.unmet.contains(&"bsp_record can give 23: not met".to_string()));
    assert!(!faults.unmet.contains(&"bsp_record can give 20: not met".to_string()));
    assert!(faults.impossible.is_empty());
}

#[test]
fn a_refusal_that_cannot_be_is_noticed() {
    let calls = Calls { count: |m, s, o| calls::count(m, s, o).max(19), ..Calls::linked() };
    let faults = coverage::faults(&records::compare(&calls, &PLAN));
    assert_eq!(faults.impossible, ["bsp_count cannot give 19"]);
}

#[test]
fn a_sample_is_replayed() {
    let sample = sample::write(3, true);
    assert_eq!(sample.text, sample::write(3, true).text);
    let board = replay::replay(&Calls::linked(), &sample.text);
    assert_eq!(board.blamed(), Vec::<String>::new());
    assert_eq!(board.lines().len(), 13);
    fn trace(f: &[u8], m: &[u32], h: &[u64], s: &[f32], o: &mut [u64]) -> u32 {
        changed(calls::trace(f, m, h, s, o), o, |o| o[0] += (o[0] == 6) as u64)
    }
    let board = replay::replay(&Calls { trace, ..Calls::linked() }, &sample.text);
    assert_eq!(board.blamed(), ["bsp_trace"]);
}

#[test]
fn a_sample_without_lists() {
    let board = replay::replay(&Calls::linked(), &sample::write(3, false).text);
    assert!(board.lines().iter().all(|line| !line.name.ends_with("_nodes")));
}

macro_rules! wrong {
    ($($mode:ident: $test:ident, $field:ident, $blamed:literal, $call:expr;)*) => {
        $(#[test]
        fn $test() {
            let calls = Calls { $field: $call, ..Calls::linked() };
            assert_eq!($mode::compare(&calls, &PLAN).blamed(), [$blamed]);
        })*
    };
}

/// The words or bytes of an answer changed where `change` says; refusals stay.
fn changed<T>(refusal: u32, out: &mut [T], change: impl FnOnce(&mut [T])) -> u32 {
    if refusal == 0 {
        change(out);
    }
    refusal
}

fn swap(word: &mut u64, from: u64, to: u64) {
    if *word == from {
        *word = to;
    }
}

wrong! {
    records: record_cuts_the_index, record, "bsp_record", |f, m, s, i, o| {
        calls::record(f, m, s, i as u32 as u64, o)
    };
    records: record_turns_the_least_entry, record, "bsp_record", |f, m, s, i, o| {
        changed(calls::record(f, m, s, i, o), o, |o| swap(&mut o[1], 18446744071562067968, 1 << 31))
    };
    records: record_loses_the_sign_of_zero, record, "bsp_record", |f, m, s, i, o| {
        changed(calls::record(f, m, s, i, o), o, |o| if s == 3 { swap(&mut o[2], 0x8000_0000, 0) })
    };
    records: record_writes_past_the_answer, record, "bsp_record", |f, m, s, i, o| {
        changed(calls::record(f, m, s, i, o), o, |o| if s == 12 { o[2] = 0 })
    };
    records: record_writes_when_it_refuses, record, "bsp_record", |f, m, s, i, o| {
        let refusal = calls::record(f, m, s, i, o);
        if refusal == 20 {
            o[0] = 0;
        }
        refusal
    };
    records: record_holds_extents, record, "bsp_record", |f, m, s, i, o| {
        let hold = |o: &mut [u64]| if s == 7 { swap(&mut o[12], -32768i64 as u64, 32767) };
        changed(calls::record(f, m, s, i, o), o, hold)
    };
    records: record_sums_no_leaves, record, "bsp_record", |f, m, s, i, o| {
        changed(calls::record(f, m, s, i, o), o, |o| if s == 14 { o[15] = 0 })
    };
    records: record_takes_a_short_list, record, "bsp_record", |f, m, s, i, o| {
        match calls::record(f, m, s, i, o) {
            22 if m.len() == 31 && o.len() > 14 => 20,
            refusal => refusal,
        }
    };
    records: count_of_no_section, count, "bsp_count", |m, s, o| match calls::count(m, s, o) {
        20 if s == 15 => 0,
        refusal => refusal,
    };
    records: entities_lose_their_zero, entities, "bsp_entities", |f, m, o| {
        changed(calls::entities(f, m, o), o, |o| o[1] = o[1].saturating_sub(1))
    };

    hand_made: record_has_no_limit, record, "bsp_record", |f, m, s, i, o| {
        match calls::record(f, m, s, i, o) {
            23 if s == 9 && m[19] >= 262_144 => 20,
            refusal => refusal,
        }
    };
    hand_made: count_rounds_up, count, "bsp_count", |m, s, o| {
        changed(calls::count(m, s, o), o, |o| if s == 9 { o[0] = (m[19] as u64).div_ceil(8) })
    };
    hand_made: entities_outside, entities, "bsp_entities", |f, m, o| {
        match calls::entities(f, m, o) {
            23 => 1,
            refusal => refusal,
        }
    };
    hand_made: hull_reads_no_model, hull, "bsp_hull", |f, m, n, i, o| {
        match calls::hull(f, m, n, i, o) {
            23 if n > 0 => 20,
            refusal => refusal,
        }
    };
    hand_made: contents_of_another_table, contents, "bsp_contents", |f, m, h, p, o| {
        match calls::contents(f, m, h, p, o) {
            20 => 30,
            refusal => refusal,
        }
    };
    hand_made: list_of_a_section_outside, pvs, "bsp_pvs", |f, m, l, c, list, o| {
        match calls::pvs(f, m, l, c, list, o) {
            23 if m[8] as usize > f.len() => 33,
            refusal => refusal,
        }
    };
    hand_made: entities_of_65536_at_most, entities, "bsp_entities", |f, m, o| {
        let mut found = [0; 2];
        match calls::entities(f, m, &mut found) {
            0 if found[1] > 65_536 => 23,
            _ => calls::entities(f, m, o),
        }
    };
    hand_made: entities_of_an_empty_section, entities, "bsp_entities", |f, m, o| {
        changed(calls::entities(f, m, o), o, |o| if m[1] == 0 { o[1] = 0 })
    };
    hand_made: hull_reads_the_models_before, hull, "bsp_hull", |f, m, n, i, o| {
        match calls::record(f, m, 14, n, &mut [0; calls::RECORD_WORDS]) {
            23 if i < 3 => 23,
            _ => calls::hull(f, m, n, i, o),
        }
    };
    hand_made: list_above_its_limit, pvs, "bsp_pvs", |f, m, l, c, list, o| {
        match calls::pvs(f, m, l, c, list, o) {
            23 if m[9] > 1_048_576 && (m[8] + m[9]) as usize <= f.len() => 33,
            refusal => refusal,
        }
    };
    hand_made: hull_over_its_limit, hull_check, "bsp_hull_check", |f, m, h, marks, o| {
        match calls::hull_check(f, m, h, marks, o) {
            23 => 30,
            refusal => refusal,
        }
    };
    hand_made: tree_over_its_limit, tree_check, "bsp_tree_check", |f, m, t, r, marks, o| {
        match calls::tree_check(f, m, t, r, marks, o) {
            23 => 30,
            refusal => refusal,
        }
    };

    walks: contents_counts_one_more, contents, "bsp_contents", |f, m, h, p, o| {
        changed(calls::contents(f, m, h, p, o), o, |o| o[1] += (o[1] > 500) as u64)
    };
    walks: contents_stops_late, contents, "bsp_contents", |f, m, h, p, o| {
        match calls::contents(f, m, h, p, o) {
            31 => 32,
            refusal => refusal,
        }
    };
    walks: contents_takes_any_box, contents, "bsp_contents", |f, m, h, p, o| {
        let refusal = calls::contents(f, m, h, p, o);
        let odd = |o: &mut [u64]| {
            if h[0] == 2 && p[0].is_nan() {
                o[0] = 2;
            }
        };
        changed(refusal, o, odd)
    };
    walks: find_leaf_tests_no_leaf, find_leaf, "bsp_find_leaf", |f, m, r, p, o| {
        match calls::find_leaf(f, m, r, p, o) {
            30 if r == 0 && m[11] > 0 && m[21] > 0 => 31,
            refusal => refusal,
        }
    };
    walks: find_leaf_cuts_its_root, find_leaf, "bsp_find_leaf", |f, m, r, p, o| {
        calls::find_leaf(f, m, r as u32 as u64, p, o)
    };
    walks: trace_is_shallow, trace, "bsp_trace", |f, m, h, s, o| {
        match calls::trace(f, m, h, s, o) {
            0 if o[0] == 512 => 32,
            refusal => refusal,
        }
    };
    walks: trace_leaves_the_plane, trace, "bsp_trace", |f, m, h, s, o| {
        let turn = |o: &mut [u64]| if o[10] == 1 && o[12] == 3 { o[16] ^= 0x8000_0000 };
        changed(calls::trace(f, m, h, s, o), o, turn)
    };
    walks: trace_forgets_the_start, trace, "bsp_trace", |f, m, h, s, o| {
        let forget = |o: &mut [u64]| o[2] = (o[1] == 2) as u64;
        changed(calls::trace(f, m, h, s, o), o, forget)
    };
    walks: trace_fills_a_terminal, trace, "bsp_trace", |f, m, h, s, o| {
        let fill = |o: &mut [u64]| if o[10] == 0 { o[11] = 0x3f80_0000 };
        changed(calls::trace(f, m, h, s, o), o, fill)
    };
    walks: nodes_in_another_order, trace_nodes, "bsp_trace_nodes", |f, m, h, s, list, o| {
        let refusal = calls::trace_nodes(f, m, h, s, list, o);
        if refusal == 0 && o[0] > 2 {
            list.swap(1, 2);
        }
        refusal
    };
    walks: a_short_list_first, contents_nodes, "bsp_contents_nodes", |f, m, h, p, list, o| {
        match calls::contents_nodes(f, m, h, p, list, o) {
            30 if list.is_empty() => 22,
            refusal => refusal,
        }
    };
    walks: a_list_cleared, find_leaf_nodes, "bsp_find_leaf_nodes", |f, m, r, p, list, o| {
        let refusal = calls::find_leaf_nodes(f, m, r, p, list, o);
        if refusal == 0 {
            list[o[0] as usize..].fill(0);
        }
        refusal
    };
    walks: hull_counts_to_zero, hull, "bsp_hull", |f, m, n, i, o| {
        let hold = |o: &mut [u64]| if o[2] > 1 << 32 { o[2] = 0 };
        changed(calls::hull(f, m, n, i, o), o, hold)
    };
    walks: hull_fills_its_size, hull, "bsp_hull", |f, m, n, i, o| {
        changed(calls::hull(f, m, n, i, o), o, |o| o[9] = o[2])
    };
    walks: box_fills_its_size, bounds, "bsp_box", |b, o| {
        changed(calls::bounds(b, o), o, |o| o[9..11].copy_from_slice(&[6, 6]))
    };
    walks: contents_by_the_size, contents, "bsp_contents", |f, m, h, p, o| {
        match calls::contents(f, m, h, p, o) {
            0 if h.get(9).is_some_and(|nodes| *nodes > o[1] && *nodes < 1 << 20) => 31,
            refusal => refusal,
        }
    };
    walks: trace_asks_for_eleven, trace, "bsp_trace", |f, m, h, s, o| {
        match calls::trace(f, m, h, s, o) {
            0 if h.len() < 11 => 22,
            refusal => refusal,
        }
    };
    walks: check_of_what_the_rust_made, hull_check, "bsp_hull_check", |f, m, h, marks, o| {
        changed(calls::hull_check(f, m, h, marks, o), o, |o| if h[0] == 1 { o[2] = o[9] })
    };
    walks: hull_three, hull, "bsp_hull", |f, m, n, i, o| match i {
        3 => calls::hull(f, m, n, 2, o),
        i => calls::hull(f, m, n, i, o),
    };
    walks: box_refuses_nan, bounds, "bsp_box", |b, o| {
        match calls::bounds(b, o) {
            0 if b.iter().any(|x| x.is_nan()) => 21,
            refusal => refusal,
        }
    };

    boxes: front_alone_where_it_divides, contents_box, "bsp_contents_box", |f, m, h, b, marks, o| {
        let refusal = calls::contents_box(f, m, h, b, marks, o);
        changed(refusal, o, |o| o[0] = 1 << o[0].trailing_zeros())
    };
    boxes: one_bit_too_many, contents_box, "bsp_contents_box", |f, m, h, b, marks, o| {
        let refusal = calls::contents_box(f, m, h, b, marks, o);
        changed(refusal, o, |o| o[0] |= (o[0].count_ones() == 1) as u64 * 6)
    };
    boxes: no_box_clears_marks, contents_box, "bsp_contents_box", |f, m, h, b, marks, o| {
        let refusal = calls::contents_box(f, m, h, b, marks, o);
        if refusal == 28 {
            marks.fill(0);
        }
        refusal
    };
    boxes: check_before_the_bounds, contents_box, "bsp_contents_box", |f, m, h, b, marks, o| {
        match calls::contents_box(f, m, h, b, marks, o) {
            28 if h[1] > 40_000 => 30,
            refusal => refusal,
        }
    };

    bodies: a_minimum_at_its_maximum, body_sizes, "bsp_body_sizes", |f, o| {
        match calls::body_sizes(f, o) {
            27 if f[3..7] == f[15..19] && f[6] < 0x7f => 0,
            refusal => refusal,
        }
    };
    bodies: tags_in_one_order, body_sizes, "bsp_body_sizes", |f, o| {
        match calls::body_sizes(f, o) {
            0 if f[0] == 2 => 26,
            refusal => refusal,
        }
    };
    bodies: bounds_before_the_whole_file, body_sizes, "bsp_body_sizes", |f, o| {
        match calls::body_sizes(f, o) {
            26 if f.len() > 27 && f[..3] == [1, 24, 0] && f[6] & 0x7f == 0x7f => 27,
            refusal => refusal,
        }
    };
    bodies: a_byte_behind_the_fields, body_sizes, "bsp_body_sizes", |f, o| {
        match f.len() {
            55 => calls::body_sizes(&f[..54], o),
            _ => calls::body_sizes(f, o),
        }
    };
    bodies: a_tag_twice, body_sizes, "bsp_body_sizes", |f, o| {
        match calls::body_sizes(f, o) {
            26 if f.len() == 81 && f[0] == f[27] => calls::body_sizes(&f[27..], o),
            refusal => refusal,
        }
    };
    bodies: the_high_byte_of_a_length, body_sizes, "bsp_body_sizes", |f, o| {
        let mut low = f.to_vec();
        if f.len() == 54 {
            low[2] = 0;
        }
        calls::body_sizes(&low, o)
    };
    bodies: sizes_written_when_refused, body_sizes, "bsp_body_sizes", |f, o| {
        let refusal = calls::body_sizes(f, o);
        if refusal == 27 {
            o[0] = 0;
        }
        refusal
    };
    bodies: hull_0_has_bounds, hull_sized, "bsp_hull_sized", |f, m, z, n, i, o| {
        let give = |o: &mut [u64]| if i == 0 { o[3..9].copy_from_slice(&[z[0]; 6]) };
        changed(calls::hull_sized(f, m, z, n, i, o), o, give)
    };
    bodies: hull_2_as_hull_1, hull_sized, "bsp_hull_sized", |f, m, z, n, i, o| {
        match i {
            2 if z.len() >= 12 => calls::hull_sized(f, m, &[&z[..6], &z[..6]].concat(), n, i, o),
            _ => calls::hull_sized(f, m, z, n, i, o),
        }
    };
    bodies: the_built_in_sizes_kept, hull_sized, "bsp_hull_sized", |f, m, z, n, i, o| {
        match z.len() >= 12 {
            true => calls::hull(f, m, n, i, o),
            false => 22,
        }
    };
    bodies: sizes_of_no_body_refused, hull_sized, "bsp_hull_sized", |f, m, z, n, i, o| {
        match calls::hull_sized(f, m, z, n, i, o) {
            0 if z[..12].iter().any(|word| !f32::from_bits(*word as u32).is_finite()) => 27,
            refusal => refusal,
        }
    };

    accept: a_range_may_go_one_further, accept, "bsp_accept", |f, m, marks| {
        let mut longer = m.to_vec();
        match calls::accept(f, m, marks) {
            35 => {
                longer[2 * 11 + 1] += 2;
                calls::accept(f, &longer, marks)
            }
            refusal => refusal,
        }
    };
    accept: tree_of_node_0_first, accept, "bsp_accept", |f, m, marks| {
        let tree = match m.len() {
            31 => calls::tree_check(f, m, 0, 0, &mut marks.to_vec(), &mut [0]),
            _ => 0,
        };
        match calls::accept(f, m, marks) {
            35 if tree == 34 => 34,
            refusal => refusal,
        }
    };
    accept: node_0_not_checked, accept, "bsp_accept", |f, m, marks| {
        match calls::accept(f, m, marks) {
            30 | 34 if m[29] == 0 => 0,
            refusal => refusal,
        }
    };
    accept: marks_left_as_they_were, accept, "bsp_accept", |f, m, marks| {
        let before = marks.to_vec();
        let refusal = calls::accept(f, m, marks);
        if refusal == 35 {
            marks.copy_from_slice(&before);
        }
        refusal
    };

    points: every_visit_counts, contents_points, "bsp_contents_points", |f, m, h, p, list, o| {
        let refusal = calls::contents_points(f, m, h, p, list, o);
        let mut visits = 0;
        for p in p.chunks(3) {
            let mut walked = [0; 2];
            visits += if calls::contents(f, m, h, p, &mut walked) == 0 { walked[1] } else { 0 };
        }
        changed(refusal, o, |o| o[0] = visits)
    };
    points: nodes_and_not_runs, contents_points, "bsp_contents_points", |f, m, h, p, list, o| {
        let refusal = calls::contents_points(f, m, h, p, list, o);
        let mut met = std::collections::BTreeSet::new();
        for p in p.chunks(3) {
            let (mut nodes, mut count) = (vec![0; 40_000], [0]);
            calls::contents_nodes(f, m, h, p, &mut nodes, &mut count);
            met.extend(nodes[..count[0] as usize].to_vec());
        }
        changed(refusal, o, |o| o[0] = met.len() as u64)
    };
    points: codes_before_the_refusal, contents_points, "bsp_contents_points", |f, m, h, p, list, o| {
        let refusal = calls::contents_points(f, m, h, p, list, o);
        if refusal == 30 {
            let mut walked = [0; 2];
            if calls::contents(f, m, h, p, &mut walked) == 0 {
                list[0] = walked[0] as u8;
            }
        }
        refusal
    };
    points: the_last_refusal, contents_points, "bsp_contents_points", |f, m, h, p, list, o| {
        let refusal = calls::contents_points(f, m, h, p, list, o);
        if matches!(refusal, 23 | 30 | 31) {
            for p in p.chunks(3).rev() {
                match calls::contents(f, m, h, p, &mut [0; 2]) {
                    0 => {}
                    last => return last,
                }
            }
        }
        refusal
    };
    points: no_points_of_no_root, contents_points, "bsp_contents_points", |f, m, h, p, list, o| {
        match calls::contents_points(f, m, h, p, list, o) {
            0 if p.is_empty() && h[1] > 1 << 40 => 30,
            refusal => refusal,
        }
    };
    points: list_past_the_points_cleared, contents_points, "bsp_contents_points", |f, m, h, p, list, o| {
        let refusal = calls::contents_points(f, m, h, p, list, o);
        if refusal == 0 {
            list[p.len() / 3..].fill(0);
        }
        refusal
    };
    points: short_before_threes, contents_points, "bsp_contents_points", |f, m, h, p, list, o| {
        match calls::contents_points(f, m, h, p, list, o) {
            24 if h.len() < 9 => 22,
            refusal => refusal,
        }
    };

    line: crossing_not_moved, trace_line, "bsp_trace_line", |f, m, h, s, o| {
        let refusal = calls::trace_line(f, m, h, s, o);
        changed(refusal, o, |o| o[0] += (o[0] > 0 && o[0] < 0x3f80_0000) as u64)
    };
    line: plane_not_turned, trace_line, "bsp_trace_line", |f, m, h, s, o| {
        // what is 0 less a zero is a zero without a sign
        let turn = |o: &mut [u64]| o[4..8].iter_mut().for_each(|x| swap(x, 0, 0x8000_0000));
        changed(calls::trace_line(f, m, h, s, o), o, |o| if o[0] < 0x3f80_0000 { turn(o) })
    };
    line: sky_is_open, trace_line, "bsp_trace_line", |f, m, h, s, o| {
        changed(calls::trace_line(f, m, h, s, o), o, |o| o[10] |= o[11])
    };
    line: too_deep_is_outside, trace_line, "bsp_trace_line", |f, m, h, s, o| {
        match calls::trace_line(f, m, h, s, o) {
            32 => 30,
            refusal => refusal,
        }
    };
    line: refusal_leaves_its_fraction, trace_line, "bsp_trace_line", |f, m, h, s, o| {
        let refusal = calls::trace_line(f, m, h, s, o);
        if refusal == 23 {
            o[0] = 0x3f80_0000;
        }
        refusal
    };

    order: a_short_table_is_written, order, "bsp_order", |f, m, t, r, marks, list, o| {
        let refusal = calls::order(f, m, t, r, marks, list, o);
        if refusal == 22 && list.len() > 2 && marks.iter().all(|mark| *mark == 0) {
            list[0] = 0;
        }
        refusal
    };
    order: back_part_first, order, "bsp_order", |f, m, t, r, marks, list, o| {
        let refusal = calls::order(f, m, t, r, marks, list, o);
        changed(refusal, o, |_| list.swap(1, 2))
    };
    order: a_negative_plane_is_zero, order_contents, "bsp_order_contents", |f, m, l, r, p, o| {
        let planes: Vec<i32> =
            l.iter().enumerate().map(|(at, w)| if at % 3 == 0 { (*w).max(0) } else { *w }).collect();
        calls::order_contents(f, m, &planes, r, p, o)
    };
    order: words_past_the_threes_are_read, order_contents, "bsp_order_contents", |f, m, l, r, p, o| {
        let mut list = l.to_vec();
        list.resize(l.len().div_ceil(3) * 3, -1);
        calls::order_contents(f, m, &list, r, p, o)
    };
    order: the_trace_begins_at_0, order_trace, "bsp_order_trace", |f, m, l, _, s, o| {
        calls::order_trace(f, m, l, 0, s, o)
    };
    order: one_visit_too_few, order_trace, "bsp_order_trace", |f, m, l, r, s, o| {
        changed(calls::order_trace(f, m, l, r, s, o), o, |o| o[0] -= 1)
    };

    textures: static_one_further, texture_static, "bsp_texture_static", |f, m, n, o| {
        let refusal = calls::texture_static(f, m, n, o);
        changed(refusal, o, |o| o[0] += 1)
    };
    textures: groups_exchanged, texture_frame, "bsp_texture_frame", |f, m, n, g, p, o| {
        calls::texture_frame(f, m, n, if g < 2 { 1 - g } else { g }, p, o)
    };
    textures: equal_names_last_first, texture_frame, "bsp_texture_frame", |f, m, n, g, p, o| {
        let refusal = calls::texture_frame(f, m, n, g, p, o);
        let mut next = [0];
        let further = calls::texture_frame(f, m, n, g, p.wrapping_add(1), &mut next);
        changed(refusal, o, |o| o[0] = if further == 0 { next[0] } else { o[0] })
    };
    textures: name_as_in_the_file, texture, "bsp_texture", |f, m, i, o| {
        let refusal = calls::texture(f, m, i, o);
        changed(refusal, o, |o| o[1] &= !0x20)
    };
    textures: one_number_further, texture_numbers, "bsp_texture_numbers", |f, m, l, o| {
        let refusal = calls::texture_numbers(f, m, l, o);
        if refusal == 0 && o[0] > 0 {
            l[0] += 1;
        }
        refusal
    };
    textures: a_number_each, texture_numbers, "bsp_texture_numbers", |f, m, l, o| {
        let refusal = calls::texture_numbers(f, m, l, o);
        if refusal == 0 {
            (0..o[0]).for_each(|at| l[at as usize] = at as u32);
        }
        refusal
    };
    textures: groups_not_tested, load, "bsp_load", |f, m| {
        match calls::load(f, m) {
            15 => 0,
            refusal => refusal,
        }
    };

    tree: marks_left_behind, tree_check, "bsp_tree_check", |f, m, t, r, marks, o| {
        let refusal = calls::tree_check(f, m, t, r, marks, o);
        if refusal == 34 {
            marks[r as usize] = 1;
        }
        refusal
    };
    tree: marks_cleared_too_far, tree_check, "bsp_tree_check", |f, m, t, r, marks, o| {
        let refusal = calls::tree_check(f, m, t, r, marks, o);
        if refusal == 0 {
            marks.fill(0);
        }
        refusal
    };
    tree: marks_touched_by_22, tree_check, "bsp_tree_check", |f, m, t, r, marks, o| {
        let refusal = calls::tree_check(f, m, t, r, marks, o);
        if refusal == 22 && m.len() == 31 {
            marks.fill(0);
        }
        refusal
    };
    tree: tree_of_513, tree_check, "bsp_tree_check", |f, m, t, r, marks, o| {
        match calls::tree_check(f, m, t, r, marks, o) {
            32 if m[19] == 8 * 513 => 0,
            refusal => refusal,
        }
    };
    tree: dirty_marks_count, tree_check, "bsp_tree_check", |f, m, t, r, marks, o| {
        let dirty = marks.first() == Some(&0xff);
        match calls::tree_check(f, m, t, r, marks, o) {
            0 if dirty => 34,
            refusal => refusal,
        }
    };
    tree: planes_first, tree_check, "bsp_tree_check", |f, m, t, r, marks, o| {
        match calls::tree_check(f, m, t, r, marks, o) {
            23 if t == 1 && m[19] == 16 => 30,
            refusal => refusal,
        }
    };

    tree: size_without_the_root, hull_check, "bsp_hull_check", |f, m, h, marks, o| {
        changed(calls::hull_check(f, m, h, marks, o), o, |o| o[9] -= (o[9] == 511) as u64)
    };
    tree: size_is_the_height, hull_check, "bsp_hull_check", |f, m, h, marks, o| {
        changed(calls::hull_check(f, m, h, marks, o), o, |o| o[9] = o[10])
    };
    tree: size_of_a_box, hull_check, "bsp_hull_check", |f, m, h, marks, o| {
        let refusal = calls::hull_check(f, m, h, marks, o);
        changed(refusal, o, |o| if h[0] == 2 { o[9..11].copy_from_slice(&[6, 6]) })
    };
    tree: size_kept_from_before, hull_check, "bsp_hull_check", |f, m, h, marks, o| {
        let keep = |o: &mut [u64]| if h.len() > 9 && h[9] > 1 << 60 { o[9] = h[9] };
        changed(calls::hull_check(f, m, h, marks, o), o, keep)
    };
    tree: old_words_as_they_were_lent, hull_check, "bsp_hull_check", |f, m, h, marks, o| {
        let keep = |o: &mut [u64]| o[..9].copy_from_slice(&h[..9]);
        changed(calls::hull_check(f, m, h, marks, o), o, keep)
    };
    tree: marks_of_a_hull_left_behind, hull_check, "bsp_hull_check", |f, m, h, marks, o| {
        let refusal = calls::hull_check(f, m, h, marks, o);
        if refusal == 34 {
            marks[h[1] as usize] = 1;
        }
        refusal
    };
    tree: table_before_the_answer, hull_check, "bsp_hull_check", |f, m, h, marks, o| {
        match calls::hull_check(f, m, h, marks, o) {
            22 if m.len() == 31 && h.len() >= 9 && o.len() < 11 && h[0] > 2 => 20,
            refusal => refusal,
        }
    };

    pvs: last_byte_listed_whole, pvs, "bsp_pvs", |f, m, l, c, list, o| {
        // the bytes of a row start at the leaves 1, 9, 17 and so on
        let whole = if c < 2 { c } else { ((c - 2) / 8 * 8).saturating_add(9) };
        calls::pvs(f, m, l, whole, list, o)
    };
    pvs: leaf_0_is_looked_up, pvs, "bsp_pvs", |f, m, l, c, list, o| {
        match calls::pvs(f, m, l, c, list, o) {
            0 if l == 0 && m[21] == 0 => 20,
            refusal => refusal,
        }
    };
    pvs: offset_at_the_end, pvs, "bsp_pvs", |f, m, l, c, list, o| {
        match calls::pvs(f, m, l, c, list, o) {
            0 if c < 2 && l > 0 && o[0] == 0 && m[9] < 2 => 33,
            refusal => refusal,
        }
    };
    pvs: short_before_outside, pvs, "bsp_pvs", |f, m, l, c, list, o| {
        match calls::pvs(f, m, l, c, list, o) {
            33 if list.is_empty() => 22,
            refusal => refusal,
        }
    };

    team: seventeen_players, pvs_team, "bsp_pvs_team", |f, m, l, c, list, o| {
        match l.len() {
            17 => calls::pvs_team(f, m, &l[..16], c, list, o),
            _ => calls::pvs_team(f, m, l, c, list, o),
        }
    };
    team: players_before_their_number, pvs_team, "bsp_pvs_team", |f, m, l, c, list, o| {
        match calls::pvs_team(f, m, l, c, list, o) {
            25 if l.contains(&u64::MAX) => 20,
            refusal => refusal,
        }
    };
    team: last_refusal, pvs_team, "bsp_pvs_team", |f, m, l, c, list, o| {
        let turned: Vec<u64> = l.iter().rev().copied().collect();
        calls::pvs_team(f, m, &turned, c, list, o)
    };
    team: short_before_a_player, pvs_team, "bsp_pvs_team", |f, m, l, c, list, o| {
        match calls::pvs_team(f, m, l, c, list, o) {
            33 if list.is_empty() => 22,
            refusal => refusal,
        }
    };
    team: last_player_left_out, pvs_team, "bsp_pvs_team", |f, m, l, c, list, o| {
        match l.len() {
            16 => calls::pvs_team(f, m, &l[..15], c, list, o),
            _ => calls::pvs_team(f, m, l, c, list, o),
        }
    };

    loads: a_record_of_what_loads, record, "bsp_record", |f, m, s, i, o| {
        changed(calls::record(f, m, s, i, o), o, |o| if s == 10 && i == 1 { o[13] ^= 1 })
    };
    loads: a_count_of_what_loads, count, "bsp_count", |m, s, o| {
        changed(calls::count(m, s, o), o, |o| o[0] -= (s == 11 && o[0] == 70_001) as u64)
    };
    loads: a_text_of_what_loads, entities, "bsp_entities", |f, m, o| {
        changed(calls::entities(f, m, o), o, |o| o[1] -= (o[1] == 65_536) as u64)
    };
    loads: a_hull_of_what_loads, hull, "bsp_hull", |f, m, n, i, o| {
        changed(calls::hull(f, m, n, i, o), o, |o| o[5] ^= (i == 2 && n == 1) as u64)
    };
    loads: a_trace_of_what_loads, trace, "bsp_trace", |f, m, h, s, o| {
        match calls::trace(f, m, h, s, o) {
            32 => 30,
            refusal => refusal,
        }
    };
    loads: a_leaf_of_what_loads, find_leaf, "bsp_find_leaf", |f, m, r, p, o| {
        changed(calls::find_leaf(f, m, r, p, o), o, |o| o[1] += (o[1] == 2) as u64)
    };
    loads: a_list_of_what_loads, pvs, "bsp_pvs", |f, m, l, c, list, o| {
        match calls::pvs(f, m, l, c, list, o) {
            33 if c == 2 => 22,
            refusal => refusal,
        }
    };
    loads: a_tree_of_what_loads, tree_check, "bsp_tree_check", |f, m, t, r, marks, o| {
        match calls::tree_check(f, m, t, r, marks, o) {
            34 if t == 0 => 30,
            refusal => refusal,
        }
    };
    loads: a_size_of_what_loads, hull_check, "bsp_hull_check", |f, m, h, marks, o| {
        changed(calls::hull_check(f, m, h, marks, o), o, |o| o[10] += (o[9] > 2) as u64)
    };
    loads: short_rows_are_short, load, "bsp_load", |f, m| match calls::load(f, m) {
        7 => 1,
        refusal => refusal,
    };
    loads: text_of_65537, load, "bsp_load", |f, m| match calls::load(f, m) {
        8 => 9,
        refusal => refusal,
    };
    loads: extents_not_tested, load, "bsp_load", |f, m| match calls::load(f, m) {
        12 => 10,
        refusal => refusal,
    };
    loads: limit_off_by_one, load, "bsp_load", |f, m| match calls::load(f, m) {
        0 if m[27] == 2_048_000 => 6,
        refusal => refusal,
    };
    loads: texture_count_lost, load, "bsp_load", |f, m| {
        let refusal = calls::load(f, m);
        if refusal == 0 {
            m[30] = 0;
        }
        refusal
    };
    loads: words_written_when_refused, load, "bsp_load", |f, m| {
        let refusal = calls::load(f, m);
        if refusal == 12 {
            m[0] = 0;
        }
        refusal
    };
    loads: surrogates_taken, load, "bsp_load", |f, m| match calls::load(f, m) {
        9 if f.ends_with(&[0xed, 0xa0, 0x80, 0]) => 7,
        refusal => refusal,
    };

    place: the_record_after, load_place, "bsp_load_place", |f, o| {
        changed(calls::load_place(f, o), o, |o| if o[0] == 11 { o[2] += 1 })
    };
    place: the_byte_of_the_next_record, load_place, "bsp_load_place", |f, o| {
        changed(calls::load_place(f, o), o, |o| if o[..2] == [1, 10] { o[3] += 28 })
    };
    place: extents_of_the_edges, load_place, "bsp_load_place", |f, o| {
        changed(calls::load_place(f, o), o, |o| if o[0] == 12 { o[1] = 12 })
    };
    place: no_models_by_the_planes, load_place, "bsp_load_place", |f, o| {
        changed(calls::load_place(f, o), o, |o| if o[..3] == [6, 15, 14] { o[2] = 1 })
    };
    place: a_texture_by_the_section, load_place, "bsp_load_place", |f, o| {
        changed(calls::load_place(f, o), o, |o| if o[..2] == [13, 2] { o[3] -= 1 })
    };
    place: a_refusal_is_answered, load_place, "bsp_load_place", |f, o| {
        match calls::load_place(f, o) {
            0 => o[0] as u32,
            refusal => refusal,
        }
    };
    place: the_version_before, version, "bsp_version", || calls::VERSION - 256;

    made: less_127, made_up, "bsp_made_up", |s, n, b, o| {
        changed(calls::made_up(s, n, b, o), b, |b| {
            // the distance of the first plane
            let near = f32::from_le_bytes(b[137..141].try_into().unwrap()) + 1.0;
            b[137..141].copy_from_slice(&near.to_le_bytes());
        })
    };
    made: last_back_child_is_solid, made_up, "bsp_made_up", |s, n, b, o| {
        changed(calls::made_up(s, n, b, o), b, |b| b[127 + 52 * n as usize] = 0xfe)
    };
    made: short_before_the_count, made_up, "bsp_made_up", |s, n, b, o| {
        match calls::made_up(s, n, b, o) {
            29 if o.is_empty() => 22,
            refusal => refusal,
        }
    };
    made: the_count_in_32_bits, made_up, "bsp_made_up", |s, n, b, o| {
        calls::made_up(s, n % (1 << 32), b, o)
    };

    sky: sky_is_refused, load, "bsp_load", |f, m| match calls::load(f, m) {
        // the first leaf's contents
        0 if m[21] > 0 && f[m[20] as usize] == 250 => 10,
        refusal => refusal,
    };
    sky: a_leaf_of_sky_is_solid, record, "bsp_record", |f, m, s, i, o| {
        changed(calls::record(f, m, s, i, o), o, |o| if s == 10 { swap(&mut o[0], 6, 2) })
    };
    sky: sky_has_no_bit, contents_box, "bsp_contents_box", |f, m, h, b, marks, o| {
        changed(calls::contents_box(f, m, h, b, marks, o), o, |o| o[0] &= !64)
    };
}
