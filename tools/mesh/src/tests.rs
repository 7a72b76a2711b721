use crate::fault::{first_broken, Fault};
use crate::grid::{lay, Frame, Weld};
use crate::model::{read, By, Model};

fn corners(model: &Model) -> Vec<[usize; 3]> {
    model.triangles.iter().map(|t| t.corners).collect()
}

#[test]
fn obj_counts_back_and_joins_lines() {
    let model = read(b"v 0 0 0\nv 1 0 0\nv 0 1 0\nf -3/1 -2//4 \\\n -1\nv 0 0 1\nf 1 2 3 -1", "obj").unwrap();
    assert_eq!(corners(&model), [[0, 1, 2], [0, 1, 2], [0, 2, 3]]);
    assert_eq!((model.cut, model.triangles[0].at, model.triangles[2].at, model.triangles[2].face), (1, 4, 7, 1));
}

#[test]
fn old_line_ends_count() {
    let model = read(b"OFF\r3 1 0\r\n0 0 0\r1 0 0\r0 1 0\r3 0 1 2\rmore", "off").unwrap();
    assert_eq!((model.triangles[0].at, model.rest), (6, Some(7)));
}

#[test]
fn whole_numbers_stay_if_they_fit() {
    let at = |low: f64, high: f64| Frame::of(&[[low; 3], [high, 0.0, 0.0]], None).unwrap();
    assert_eq!(at(-2048.0, 2047.0), Frame { step: 1.0, origin: [0.0; 3] });
    let moved = at(0.0, 4095.0);
    assert_eq!((moved.step, moved.steps([0.0; 3])[0], moved.steps([4095.0; 3])[0]), (1.0, -2048.0, 2047.0));
    let filled = at(0.0, 4096.0);
    assert_eq!((filled.step, filled.steps([0.0; 3])[0], filled.steps([4096.0; 3])[0]), (4096.0 / 4095.0, -2048.0, 2047.0));
}

#[test]
fn a_frame_is_read_as_it_was_written() {
    let frame = Frame { step: 0.1 / 3.0, origin: [1e-300, -0.7, 1e17] };
    assert_eq!(Frame::read(frame.text().as_bytes()), Ok(frame));
}

/// Two triangles that share an edge, with a thin one between them whose two far corners are one.
fn thin() -> Model {
    let mut model = Model::new(By::Line, Some(0));
    model.points = vec![[0.0; 3], [9.5, 0.0, 0.0], [0.0, 9.0, 0.0], [0.0, -9.0, 0.0], [-0.0, 0.0, 0.0], [7.0; 3]];
    model.add_face(&[0, 1, 2], 1);
    model.add_face(&[1, 0, 4], 2);
    model.add_face(&[1, 4, 3], 3);
    model
}

#[test]
fn a_collapsed_triangle_leaves_no_hole() {
    let laid = lay(&thin(), None, Weld::Equal, false).unwrap();
    assert_eq!((laid.list, laid.collapsed), (vec![[0, 1, 2], [1, 0, 3]], vec![1]));
    assert_eq!((laid.unused, laid.welded, laid.vertex_of), (1, 1, vec![0, 1, 2, 3]));
    assert_eq!(lay(&thin(), None, Weld::Equal, true).unwrap().list.len(), 3);
    assert_eq!(lay(&thin(), None, Weld::Nothing, false).unwrap().vertex_of.len(), 5);
    assert_eq!(lay(&thin(), Some(0.01), Weld::Grid, false).unwrap().collapsed.len(), 3);
}

#[test]
fn limits_are_the_rules() {
    let strip = |t: u64| (0..t).flat_map(|i| if i % 2 == 0 { [i, i + 1, i + 2] } else { [i + 1, i, i + 2] }).collect::<Vec<u64>>();
    assert_eq!(first_broken(4096, &strip(4094)), None);
    assert_eq!(first_broken(4097, &strip(4095)), Some((2, vec![Fault::Vertices(4097)])));
    assert_eq!(first_broken(3, &[0; 24_579]), Some((1, vec![Fault::Count(24_579)])));
    assert_eq!(first_broken(3, &[0; 24_576]).map(|(number, _)| number), Some(4));
}
