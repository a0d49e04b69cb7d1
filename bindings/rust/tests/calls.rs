//! The calls, on a drawn label and on what each must refuse.

mod drawn;

use drawn::{SIZE, marked, picture, request};
use trufolmesca::*;

const PINHOLE: Intrinsics = Intrinsics { fx: 100.0, fy: 100.0, cx: 52.0, cy: 52.0 };
const HALF: Intrinsics = Intrinsics { fx: 50.0, fy: 50.0, cx: 26.0, cy: 26.0 };

const DRAWN: Quad = [[20.3, 20.3], [83.3, 20.3], [83.3, 83.3], [20.3, 83.3]];

/// Demands that corners are a tenth of a pixel or less from where they were drawn.
fn demand_drawn(corners: &Quad) {
    for (found, drawn) in corners.iter().flatten().zip(DRAWN.iter().flatten()) {
        assert!((found - drawn).abs() < 0.1, "{corners:?}");
    }
}

#[test]
fn corners_are_where_they_were_drawn() {
    let bytes = picture();
    let answer = refine_corners(&request(&bytes)).unwrap();
    demand_drawn(&answer.corners);
    assert_eq!(answer.refined, [true; 4]);
    assert!(answer.edges.iter().all(|e| e.valid && e.fit > 0 && e.fit + e.dropped <= e.probed));
}

#[test]
fn a_scale_divides_the_rough_corners() {
    let bytes = picture();
    let mut halved = request(&bytes).with_scale([0.5, 0.5]);
    halved.corners = halved.corners.map(|place| place.map(|at| at / 2.0));
    assert_eq!(refine_corners(&halved), refine_corners(&request(&bytes)));
}

#[test]
fn a_stride_skips_the_bytes_between_rows() {
    let bytes = picture();
    let wide: Vec<u8> = bytes.chunks(SIZE).flat_map(|row| [row, &[9; 3]].concat()).collect();
    let mut request = request(&bytes);
    let answer = refine_corners(&request);
    request.photograph.bytes = &wide;
    request.photograph = request.photograph.with_stride(SIZE as u32 + 3);
    assert_eq!(refine_corners(&request), answer);
}

#[test]
fn a_label_light_on_dark_is_inverted() {
    let bytes: Vec<u8> = picture().iter().map(|byte| 255 - byte).collect();
    assert_eq!(refine_corners(&request(&bytes)), Err(Refusal::THIN));
    demand_drawn(&refine_corners(&request(&bytes).with_inverted(true)).unwrap().corners);
}

#[test]
fn through_a_camera_corners_are_rectified_pixels() {
    let bytes = picture();
    let brown_conrady = Lens::BrownConrady { k1: 0.01, k2: -0.002, p1: 0.001, p2: 0.001, k3: 0.0005 };
    // Near the identity, since tan θ is θ + θ³/3 + 2θ⁵/15 + ..
    let fisheye = Lens::Fisheye { k1: 0.333, k2: 0.133, k3: 0.054, k4: 0.02 };
    for lens in [None, Some(brown_conrady), Some(fisheye)] {
        let camera = Camera { source: PINHOLE, rectified: HALF, lens };
        let mut request = request(&bytes).with_camera(camera);
        request.corners = request.corners.map(|place| place.map(|at| at / 2.0));
        let answer = refine_corners(&request).unwrap();
        assert!(answer.corners[2].iter().all(|at| (at - 41.65).abs() < 0.2));
        demand_drawn(&answer.corners.map(|corner| rectified_to_source(&camera, corner).unwrap()));
        assert_eq!(marked(&request).0, Ok(answer));
    }
}

#[test]
fn a_marking_call_answers_as_the_plain_one() {
    let bytes = picture();
    let mut request = request(&bytes);
    let (result, sheet, copy) = marked(&request);
    assert_eq!(result, refine_corners(&request));
    assert!(sheet.contains(&0) && sheet.contains(&1));
    for (i, mark) in sheet.iter().enumerate() {
        assert_eq!(copy[i], mark * bytes[i]);
    }
    request.photograph.bytes = &copy;
    assert_eq!(marked(&request), (result, sheet, copy.clone()));
}

#[test]
fn a_refusal_has_written_the_marks_where_it_says_so() {
    let grey = vec![128; SIZE * SIZE];
    let wrong = request(&grey).with_scale([f64::NAN, 1.0]);
    let (result, sheet, copy) = marked(&wrong);
    assert!(!result.unwrap_err().marked());
    assert!(sheet.iter().chain(&copy).all(|byte| *byte == 7));
    let (result, sheet, _) = marked(&request(&grey));
    assert!(result.unwrap_err().marked());
    assert!(sheet.iter().all(|mark| *mark <= 1));
}

#[test]
fn a_refused_call_writes_zeros() {
    let written = raw::refine_corners(&request(&[]));
    assert_eq!(written.number, Refusal::PHOTOGRAPH.number());
    assert!(written.values.corners.iter().flatten().all(|at| at.to_bits() == 0));
    assert_eq!(written.values.refined, [false; 4]);
    assert_eq!(written.values.edges, [Edge { probed: 0, fit: 0, dropped: 0, valid: false }; 4]);
    assert_eq!(raw::square_to_quad(&[[0.0; 2]; 4]), raw::Written { number: 8, values: [0.0; 9] });
}

#[test]
fn a_wrong_request_is_refused_by_its_number() {
    let bytes = picture();
    let good = request(&bytes);
    let refused = |change: fn(&mut Request)| {
        let mut wrong = good;
        change(&mut wrong);
        refine_corners(&wrong).unwrap_err()
    };
    let wrong_camera = Camera { source: PINHOLE, rectified: Intrinsics { fx: 0.0, ..PINHOLE }, lens: None };
    assert_eq!(refused(|r| r.photograph.width = 0), Refusal::SIZE);
    assert_eq!(refused(|r| r.photograph.stride = 1), Refusal::PHOTOGRAPH);
    assert_eq!(refused(|r| r.grid.dim = 22), Refusal::GRID);
    assert_eq!(refused(|r| r.grid.modules = &[2; 21 * 21]), Refusal::GRID);
    assert_eq!(refused(|r| r.scale[1] = -1.0), Refusal::SCALE);
    assert_eq!(refused(|r| r.corners[3][0] = f64::INFINITY), Refusal::CORNER);
    assert_eq!(refine_corners(&good.with_camera(wrong_camera)), Err(Refusal::LENS));
    assert_eq!(refused(|r| r.corners = [[0.0; 2]; 4]), Refusal::QUAD);
    assert_eq!(refused(|r| r.inverted = true), Refusal::THIN);
}

/// Settings at the ends of their ranges, the label's contrast among them.
const WIDEST: Settings = Settings {
    probe_fraction_first: 1.0,
    probe_fraction_second: -0.0,
    edge_margin_modules: 1.0,
    max_points_per_edge: 354,
    min_edge_points: 2,
    contrast_floor: 1,
    outlier_floor_modules: 100.0,
    outlier_median_multiplier: 0.0,
    rounds: 4,
};

#[test]
fn default_settings_are_those_of_a_request_without() {
    let bytes = picture();
    let camera = Camera { source: PINHOLE, rectified: PINHOLE, lens: None };
    for request in [request(&bytes), request(&bytes).with_camera(camera), request(&[])] {
        let under = request.with_settings(Settings::default());
        assert_eq!(refine_corners(&under), refine_corners(&request));
        assert_eq!(marked(&under), marked(&request));
    }
}

#[test]
fn settings_change_what_is_probed() {
    let bytes = picture();
    let request = request(&bytes);
    let answer = refine_corners(&request.with_settings(WIDEST)).unwrap();
    demand_drawn(&answer.corners);
    // Two at each of the 20 places between two modules.
    assert!(answer.edges.iter().all(|e| (e.probed, e.dropped) == (40, 0)));
    let few = Settings { max_points_per_edge: 3, min_edge_points: 3, ..WIDEST };
    let answer = refine_corners(&request.with_settings(few)).unwrap();
    assert!(answer.edges.iter().all(|e| (e.probed, e.fit) == (3, 3)));
    let (result, sheet, copy) = marked(&request.with_settings(few));
    assert_eq!(result, Ok(answer));
    // In each round three probes on four edges, of at most 21 samples of four pixels.
    assert!(sheet.iter().filter(|mark| **mark == 1).count() <= 4 * 3 * 4 * 21 * 4);
    assert!(copy.iter().zip(&sheet).zip(&bytes).all(|((kept, mark), byte)| *kept == mark * byte));
}

#[test]
fn settings_out_of_range_are_refused_and_nothing_is_written() {
    let bytes = picture();
    let good = request(&bytes);
    let demand_refused = |change: fn(&mut Settings)| {
        let mut settings = Settings::default();
        change(&mut settings);
        let (result, sheet, copy) = marked(&good.with_settings(settings));
        assert_eq!(result, Err(Refusal::SETTINGS), "{settings:?}");
        assert!(sheet.iter().chain(&copy).all(|byte| *byte == 7));
        assert_eq!(refine_corners(&good.with_settings(settings)), Err(Refusal::SETTINGS));
    };
    demand_refused(|s| s.probe_fraction_first = -f64::MIN_POSITIVE);
    demand_refused(|s| s.probe_fraction_second = 1.0 + f64::EPSILON);
    demand_refused(|s| s.edge_margin_modules = f64::NAN);
    demand_refused(|s| s.max_points_per_edge = 355);
    demand_refused(|s| s.min_edge_points = 1);
    demand_refused(|s| s.contrast_floor = 256);
    demand_refused(|s| s.outlier_floor_modules = f64::INFINITY);
    demand_refused(|s| s.outlier_median_multiplier = -1.0);
    demand_refused(|s| s.rounds = u32::MAX);
}

#[test]
fn settings_are_tested_between_the_camera_and_the_sheet() {
    let bytes = picture();
    let wrong = request(&bytes).with_settings(Settings { rounds: 0, ..Settings::default() });
    let no_camera = Camera { source: PINHOLE, rectified: Intrinsics { fy: 0.0, ..PINHOLE }, lens: None };
    assert_eq!(refine_corners(&wrong.with_camera(no_camera)), Err(Refusal::LENS));
    let (mut sheet, mut copy) = ([7; 4], [7; 4]);
    assert_eq!(refine_corners_marking(&wrong, &mut sheet, &mut copy), Err(Refusal::SETTINGS));
    let right = wrong.with_settings(WIDEST);
    assert_eq!(refine_corners_marking(&right, &mut sheet, &mut copy), Err(Refusal::SHEET));
}

#[test]
fn a_list_of_settings_has_nine_numbers_that_are_whole_where_they_must_be() {
    let bytes = picture();
    let request = request(&bytes);
    let list = raw::settings_list(&Settings::default());
    let number = |list: &[f64]| raw::refine_corners_with(&request, list).number;
    assert_eq!(number(&list), 0);
    assert_eq!(number(&[&list[..], &[f64::NAN]].concat()), 0);
    for n in 0..9 {
        assert_eq!(number(&list[..n]), Refusal::SETTINGS.number());
    }
    for at in [3, 4, 5, 8] {
        let mut wrong = list;
        wrong[at] += 0.5;
        assert_eq!(number(&wrong), Refusal::SETTINGS.number());
    }
}

#[test]
fn a_wrong_line_is_refused_by_its_number() {
    let fit = |xs: &[f64], ys: &[f64], weights: &[f64]| fit_line_tls_weighted(xs, ys, weights).unwrap_err();
    assert_eq!(fit(&[1.0], &[1.0], &[1.0]), Refusal::POINTS);
    assert_eq!(fit(&[1.0, 2.0], &[1.0, 2.0], &[1.0]), Refusal::PAIRING);
    assert_eq!(fit(&[1.0, f64::NAN], &[1.0, 2.0], &[1.0, 1.0]), Refusal::FINITE);
    assert_eq!(fit(&[1.0, 2.0], &[1.0, 2.0], &[0.0, 0.0]), Refusal::WEIGHT);
    assert_eq!(fit(&[1.0, 1.0], &[2.0, 2.0], &[1.0, 1.0]), Refusal::LINE);
    assert_eq!(fit(&[1e308, -1e308], &[0.0, 1.0], &[1.0, 1.0]), Refusal::OVERFLOW);
}

#[test]
fn maps_join() {
    let (one, two) = (DRAWN, [[0.0, 0.0], [9.0, 1.0], [8.0, 9.0], [1.0, 7.0]]);
    let map = Map::quad_to_quad(&one, &two).unwrap();
    for (from, to) in one.iter().zip(two) {
        assert!(map.map(*from).iter().zip(to).all(|(found, at)| (found - at).abs() < 1e-9));
    }
    assert_eq!(Map::quad_to_quad(&one, &[[0.0; 2]; 4]), Err(Refusal::QUAD));
    assert_eq!(Map::scaled(2.0, 3.0).0, [2.0, 0.0, 0.0, 0.0, 3.0, 0.0, 0.0, 0.0, 1.0]);
}

#[test]
fn an_edge_point_is_found_through_a_camera_too() {
    let bytes = picture();
    let photograph = request(&bytes).photograph;
    let aim =
        Aim { coarse: [20.0, 52.0], normal: [-1.0, 0.0], step: 1.5, inverted: false, inward_differs: false };
    let point = localize_edge_point(&photograph, None, &aim).unwrap();
    assert!((point.place[0] - 20.3).abs() < 0.1);
    let camera = Camera { source: PINHOLE, rectified: HALF, lens: None };
    let rectified = Aim { coarse: [10.0, 26.0], step: 0.75, ..aim };
    let point = localize_edge_point(&photograph, Some(&camera), &rectified).unwrap();
    assert!((point.place[0] - 10.15).abs() < 0.05);
}

#[test]
fn an_edge_point_is_found_under_settings_too() {
    let bytes = picture();
    let photograph = request(&bytes).photograph;
    let aim =
        Aim { coarse: [20.0, 52.0], normal: [-1.0, 0.0], step: 1.5, inverted: false, inward_differs: false };
    let same = Camera { source: PINHOLE, rectified: PINHOLE, lens: None };
    for camera in [None, Some(&same)] {
        let under = |settings: Settings| localize_edge_point_with(&photograph, camera, &aim, &settings);
        assert_eq!(under(Settings::default()), localize_edge_point(&photograph, camera, &aim));
        assert_eq!(under(WIDEST), localize_edge_point(&photograph, camera, &aim));
        assert_eq!(under(Settings { contrast_floor: 255, ..WIDEST }), Err(Refusal::PROFILE));
        assert_eq!(under(Settings { contrast_floor: 256, ..WIDEST }), Err(Refusal::SETTINGS));
    }
    let wrong = Camera { source: Intrinsics { fx: f64::NAN, ..PINHOLE }, ..same };
    let refusal =
        localize_edge_point_with(&photograph, Some(&wrong), &aim, &Settings { rounds: 9, ..WIDEST });
    assert_eq!(refusal, Err(Refusal::LENS));
}

/// The mean, rounded down, of the heights up to half a window from i.
fn mean_around(scan: &[u16], window: u32, i: usize) -> u16 {
    let reach = window as usize / 2;
    let around = &scan[i.saturating_sub(reach)..scan.len().min(i + reach + 1)];
    (around.iter().map(|&height| u64::from(height)).sum::<u64>() / around.len() as u64) as u16
}

#[test]
fn a_scan_is_smoothed_alike_to_a_buffer_and_over_itself() {
    for window in (3..=31).step_by(2) {
        for length in [0, 1, 2, 15, 16, 17, 31, 40, 1000] {
            let mut scan: Vec<u16> =
                (0..length).map(|i: u32| (i * i % 1000 * 7919 + i % 3 * 65000) as u16).collect();
            let expected: Vec<u16> = (0..scan.len()).map(|i| mean_around(&scan, window, i)).collect();
            let mut out = vec![7; scan.len() + 2];
            assert_eq!(smooth_to(&scan, window, &mut out), Ok(()));
            assert_eq!(out, [&expected[..], &[7, 7]].concat());
            assert_eq!(smooth_over(&mut scan, window), Ok(()));
            assert_eq!(scan, expected);
        }
    }
}

#[test]
fn a_scan_that_is_refused_stays() {
    let (mut scan, mut short) = ([9, 8, 7], [5, 5]);
    for window in [0, 1, 2, 4, 32, 33, u32::MAX] {
        assert_eq!(smooth_to(&scan, window, &mut short), Err(Refusal::WINDOW));
        assert_eq!(smooth_over(&mut scan, window), Err(Refusal::WINDOW));
    }
    assert_eq!(smooth_to(&scan, 3, &mut short), Err(Refusal::ROOM));
    assert_eq!((scan, short), ([9, 8, 7], [5, 5]));
}

/// A result card of so many bytes a count, of counts from 0 on and every flag set.
fn result_card(wide: usize) -> Vec<u8> {
    let edge = |e: usize| {
        let counts = [e, e + 1, e + 2].map(|n| (n as u16).to_le_bytes()[..wide].to_vec()).concat();
        [counts, vec![1]].concat()
    };
    let corners: Vec<u8> = (0..64).map(|i| (i * 37 % 256) as u8).collect();
    let stats = [0, 1, 2, 3].map(edge).concat();
    let head = |tag: u8, n: usize| vec![tag, n as u8, 0];
    [
        head(16, 64),
        corners,
        head(if wide == 1 { 17 } else { 19 }, stats.len()),
        stats,
        head(18, 4),
        vec![1; 4],
    ]
    .concat()
}

#[test]
fn a_result_card_goes_to_the_other_form_and_back() {
    let (older, newer) = (result_card(1), result_card(2));
    assert_eq!((older.len(), newer.len()), (OLDER_RESULT_CARD_SIZE, RESULT_CARD_SIZE));
    assert_eq!(widen_result_card(&older).map(|card| card.to_vec()), Ok(newer.clone()));
    assert_eq!(narrow_result_card(&newer).map(|card| card.to_vec()), Ok(older.clone()));
    assert_eq!(widen_result_card(&newer), Err(Refusal::FORM));
    assert_eq!(narrow_result_card(&older), Err(Refusal::FORM));
    let mut large = newer;
    large[71] = 1;
    assert_eq!(narrow_result_card(&large), Err(Refusal::COUNT));
    large[76] = 2;
    assert_eq!(narrow_result_card(&large), Err(Refusal::FORM));
}

#[test]
fn a_result_card_that_is_refused_stays() {
    let mut short = [7; RESULT_CARD_SIZE - 1];
    assert_eq!(raw::widen_result_card(&result_card(1), &mut short), Refusal::CARD.number());
    assert_eq!(raw::run_card(&[], &mut short), Refusal::CARD.number());
    assert_eq!(raw::narrow_result_card(&result_card(2), &mut short[..92]), Refusal::CARD.number());
    assert_eq!(short, [7; RESULT_CARD_SIZE - 1]);
}
