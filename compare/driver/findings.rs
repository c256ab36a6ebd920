//! The findings of docs/DIFFERENCES.md that can be run: inputs at which the Rust's code does
//! otherwise than a comment says, with the answer that the document states. Each is run on the
//! Rust; the document is right as long as each answer is the stated one.

use relay_mix_quad::{motors_to_torque_signs, passed_on as quad, MixerN, QuadMixer};

use rooms::equations::inputs::{PITCH, ROLL};

/// Runs every finding, and says whether each answer is the stated one.
pub fn run() -> bool {
    let all = findings();
    let mut differ = 0;
    for f in &all {
        println!("{} {}: {}", f.label, f.input, f.found);
        if f.found != f.stated {
            println!("    stated {}", f.stated);
            differ += 1;
        }
    }
    println!("{} findings run, {differ} differ", all.len());
    differ == 0
}

/// One finding: its number in the document, the input, the answer found and the answer stated.
struct Finding {
    label: &'static str,
    input: &'static str,
    found: String,
    stated: &'static str,
}

/// Two to the power k.
fn two(k: i32) -> f32 {
    2.0f32.powi(k)
}

/// Numbers as the document writes them.
fn listed(numbers: &[f32]) -> String {
    let all: Vec<String> = numbers.iter().map(f32::to_string).collect();
    all.join(", ")
}

/// Motors, and the torque sums that they give.
fn with_sums(motors: [f32; 4]) -> String {
    let sums = motors_to_torque_signs(motors);
    format!("{}; sums {}", listed(&motors), listed(&sums))
}

/// Motors, and the scale that the state then holds.
fn with_scale(motors: [f32; 4], state: &QuadMixer) -> String {
    format!("{}; scale {}", listed(&motors), state.last_torque_scale())
}

fn thrust_floor(torque: [f32; 3], thrust: f32, floor: f32) -> String {
    let mut state = QuadMixer::new();
    let motors = state.mix_thrust_floor(torque, thrust, floor);
    with_scale(motors, &state)
}

fn plain(torque: [f32; 3], thrust: f32) -> [f32; 4] {
    QuadMixer::new().mix(torque, thrust)
}

fn priority(torque: [f32; 3], thrust: f32, floor: f32) -> [f32; 4] {
    QuadMixer::new().mix_priority(torque, thrust, floor)
}

fn airmode(torque: [f32; 3], thrust: f32, idle: f32) -> [f32; 4] {
    QuadMixer::new().mix_airmode(torque, thrust, idle)
}

fn rotor_out(lost: usize, torque: [f32; 3], thrust: f32, floor: f32) -> [f32; 4] {
    QuadMixer::new().mix_rotor_out(lost, torque, thrust, floor)
}

/// What the state holds after a thrust-floor mix that records 0.5, and then rotor-out.
fn scale_after_rotor_out() -> String {
    let mut state = QuadMixer::new();
    state.mix_thrust_floor([0.5, 0.0, 0.0], 0.5, 0.25);
    let before = state.last_torque_scale();
    state.mix_rotor_out(0, [-0.25, 0.25, 0.0], 0.5, 0.0);
    format!("{before}, then {}", state.last_torque_scale())
}

/// A solution as the document writes it.
fn solution(a: [[f32; 3]; 3], rhs: [f32; 3]) -> String {
    quad::solve3(a, rhs).map_or("none".into(), |x| listed(&x))
}

/// The identity, each entry divided by d.
fn identity_over(d: f32) -> [[f32; 3]; 3] {
    let e = 1.0 / d;
    [[e, 0.0, 0.0], [0.0, e, 0.0], [0.0, 0.0, e]]
}

/// Ones, and the signs of roll and pitch of the three rotors after the lost one.
fn rotor_out_matrix(lost: usize) -> [[f32; 3]; 3] {
    let healthy = [1, 2, 3].map(|k| (lost + k) % 4);
    [
        [1.0; 3],
        healthy.map(|i| ROLL[i]),
        healthy.map(|i| PITCH[i]),
    ]
}

/// Row i of a frame: what one motor at full command gives.
fn frame_row(frame: &MixerN, i: usize) -> [f32; 4] {
    let mut motors = [0.0; 8];
    motors[i] = 1.0;
    frame.achieved_wrench(&motors)
}

/// A frame of which only row 8 and row 1 have an entry, with a count of 1.
fn row_past_the_count() -> [f32; 8] {
    let mut rows = [[0.0; 4]; 8];
    rows[0][0] = 1.0;
    rows[7][0] = 2.0;
    MixerN::new(rows, 1).mix([0.0; 3], 1.0)
}

fn degrees(d: f32) -> f32 {
    d * std::f32::consts::PI / 180.0
}

fn finding(
    label: &'static str,
    input: &'static str,
    found: String,
    stated: &'static str,
) -> Finding {
    Finding {
        label,
        input,
        found,
        stated,
    }
}

fn findings() -> Vec<Finding> {
    let mut all = of_the_quad();
    all.extend(of_the_helpers());
    all.extend(of_frames());
    all
}

fn of_the_quad() -> Vec<Finding> {
    let most = f32::MAX;
    vec![
        finding(
            "F1",
            "plain 0.25, (0.5,0.25,0)",
            with_sums(plain([0.5, 0.25, 0.0], 0.25)),
            "0, 0, 0.5, 1; sums 1.5, 0.5, 0.5",
        ),
        finding(
            "F2",
            "plain 0.125, (0.125,0.25,-0.375)",
            with_sums(plain([0.125, 0.25, -0.375], 0.125)),
            "0.625, 0, 0.375, 0.125; sums -0.125, 0.375, -0.875",
        ),
        finding(
            "F3",
            "plain 2^24 + 4, zero torque",
            listed(&plain([0.0; 3], two(24) + 4.0)),
            "0, 0, 0, 0",
        ),
        finding(
            "F4",
            "plain 2, zero torque",
            listed(&plain([0.0; 3], 2.0)),
            "1, 1, 1, 1",
        ),
        finding(
            "F5",
            "the derived default's scale, and new's",
            listed(&[
                QuadMixer::default().last_torque_scale(),
                QuadMixer::new().last_torque_scale(),
            ]),
            "0, 1",
        ),
        finding(
            "F6",
            "thrust-floor 0.5, (MAX,MAX,0), floor 0",
            thrust_floor([most, most, 0.0], 0.5, 0.0),
            "0.5, 0.5, 0.5, 0.5; scale 1",
        ),
        finding(
            "F7",
            "thrust-floor 1, (1e-6,0,0), floor 0",
            thrust_floor([1.0e-6, 0.0, 0.0], 1.0, 0.0),
            "0.999999, 0.999999, 1, 1; scale 1",
        ),
        finding(
            "F8",
            "thrust-floor 0.25, zero torque, floor 0.5",
            thrust_floor([0.0; 3], 0.25, 0.5),
            "0.5, 0.5, 0.5, 0.5; scale 1",
        ),
        finding(
            "F9",
            "thrust-floor 0.5, (2^127,2^127,2^127), floor 0",
            listed(&QuadMixer::new().mix_thrust_floor([two(127); 3], 0.5, 0.0)),
            "0, 0.5, 0, 0.5",
        ),
        finding(
            "F10",
            "the scale recorded by thrust-floor, then rotor-out",
            scale_after_rotor_out(),
            "0.5, then 1",
        ),
        finding(
            "F11",
            "priority 0.875, (0.25,0.25,-0.125), floor 0",
            with_sums(priority([0.25, 0.25, -0.125], 0.875, 0.0)),
            "1, 0.5, 1, 1; sums 0.5, 0.5, -0.5",
        ),
        finding(
            "F12",
            "airmode 0.5, (2^127,0,0), idle 0.25",
            listed(&airmode([two(127), 0.0, 0.0], 0.5, 0.25)),
            "0.25, 0.25, 0.25, 0.25",
        ),
        finding(
            "F13",
            "airmode 0.5, (2^126,0,0), idle 0.25",
            listed(&airmode([two(126), 0.0, 0.0], 0.5, 0.25)),
            "0.25, 0.25, 1, 1",
        ),
        finding(
            "F14",
            "airmode 0.25, (0.25,0,0), idle 0.125",
            listed(&airmode([0.25, 0.0, 0.0], 0.25, 0.125)),
            "0.125, 0.125, 0.625, 0.625",
        ),
        finding(
            "F15",
            "airmode 0.5, (0.125,0,0), idle 0.125",
            listed(&airmode([0.125, 0.0, 0.0], 0.5, 0.125)),
            "0.375, 0.375, 0.625, 0.625",
        ),
        finding(
            "F16",
            "rotor 4, 0.875, (0.5,0,0), floor 0",
            listed(&rotor_out(4, [0.5, 0.0, 0.0], 0.875, 0.0)),
            "0.375, 0.375, 1, 1",
        ),
        finding(
            "F17",
            "M1 out, 0.5, zero torque, floor 0.25",
            with_sums(rotor_out(0, [0.0; 3], 0.5, 0.25)),
            "0, 0.75, 0.25, 0.75; sums 0.25, -0.25, 1.25",
        ),
        finding(
            "F18",
            "M1 out, 0.5, (-0.125,0,0), floor 0.25",
            with_sums(rotor_out(0, [-0.125, 0.0, 0.0], 0.5, 0.25)),
            "0, 0.75, 0.25, 0.75; sums 0.25, -0.25, 1.25",
        ),
        finding(
            "F19",
            "M1 out, 1, zero torque, floor 0",
            listed(&rotor_out(0, [0.0; 3], 1.0, 0.0)),
            "0, 1, 0, 1",
        ),
        finding(
            "F20",
            "M1 out, 0.5, (-0.25,0.25,0), floor 0",
            with_sums(rotor_out(0, [-0.25, 0.25, 0.0], 0.5, 0.0)),
            "0, 0.75, 0, 0.75; sums 0, 0, 1.5",
        ),
    ]
}

fn of_the_helpers() -> Vec<Finding> {
    let parallel = [
        [4097.0, 12291.0, 1.0],
        [12291.0, 36873.0, 3.0],
        [6.0, 7.0, 4099.0],
    ];
    let infinity = f32::INFINITY;
    vec![
        finding(
            "F21",
            "clamp_floor(+infinity, 0.25)",
            listed(&[quad::clamp_floor(infinity, 0.25)]),
            "0.25",
        ),
        finding(
            "F22",
            "000's clamp01(NaN)",
            listed(&[quad::clamp01(f32::NAN)]),
            "NaN",
        ),
        finding(
            "F23",
            "scale_to_fit, base (2,0,0,0), delta 0; then delta (-0.5,0,0,0)",
            listed(&[
                quad::scale_to_fit(&[2.0, 0.0, 0.0, 0.0], &[0.0; 4], 0.0),
                quad::scale_to_fit(&[2.0, 0.0, 0.0, 0.0], &[-0.5, 0.0, 0.0, 0.0], 0.0),
            ]),
            "1, 1",
        ),
        finding(
            "F24",
            "scale_to_fit, base (-0,0,0,0), delta (-0.5,0,0,0), floor +0",
            listed(&[quad::scale_to_fit(
                &[-0.0, 0.0, 0.0, 0.0],
                &[-0.5, 0.0, 0.0, 0.0],
                0.0,
            )]),
            "-0",
        ),
        finding(
            "F25",
            "solve3, the identity over 128, (1,1,1)",
            solution(identity_over(128.0), [1.0; 3]),
            "none",
        ),
        finding(
            "F26",
            "det3 of rows (4097,12291,1), (12291,36873,3), (6,7,4099), and solve3 with (1,1,1)",
            format!("{}; {}", quad::det3(parallel), solution(parallel, [1.0; 3])),
            "-4129; -24403.395, 8134.4624, 21.828287",
        ),
        finding(
            "F27",
            "solve3, the identity, (+infinity,0,0)",
            solution(identity_over(1.0), [infinity, 0.0, 0.0]),
            "inf, NaN, NaN",
        ),
        finding(
            "F36",
            "det3 of the matrices that rotor-out solves, M1 to M4 out",
            listed(&[0, 1, 2, 3].map(|lost| quad::det3(rotor_out_matrix(lost)))),
            "4, 4, 4, 4",
        ),
        finding(
            "F28",
            "motors_to_torque_signs(0,0,0.5,0.25)",
            listed(&motors_to_torque_signs([0.0, 0.0, 0.5, 0.25])),
            "0.75, -0.25, -0.25",
        ),
        finding(
            "F29",
            "motors_to_torque_signs of four +infinity",
            listed(&motors_to_torque_signs([infinity; 4])),
            "NaN, NaN, NaN",
        ),
    ]
}

fn of_frames() -> Vec<Finding> {
    let torque = [-two(127), -0.25, -0.25];
    let quad_angles = [
        (degrees(45.0), false),
        (degrees(135.0), true),
        (degrees(225.0), false),
        (degrees(315.0), true),
    ];
    vec![
        finding(
            "F30",
            "MixerN, eight rows (1,0,0,0), count 4, thrust 0.5",
            listed(&MixerN::new([[1.0, 0.0, 0.0, 0.0]; 8], 4).mix([0.0; 3], 0.5)),
            "0.5, 0.5, 0.5, 0.5, 0.5, 0.5, 0.5, 0.5",
        ),
        finding(
            "F31",
            "MixerN, row 1 (1,0,0,0), row 8 (2,0,0,0), count 1, thrust 1",
            listed(&row_past_the_count()),
            "0, 0, 0, 0, 0, 0, 0, 1",
        ),
        finding(
            "F32",
            "2^127, (-2^127,-0.25,-0.25): plain, then quad_x",
            format!(
                "{}; {}",
                listed(&plain(torque, two(127))),
                listed(&MixerN::quad_x().mix(torque, two(127))[..4])
            ),
            "0, 0, 0, 0; 0, 0, 0.5, 0",
        ),
        finding(
            "F33",
            "hexa_x, pitch of rotor 2",
            listed(&frame_row(&MixerN::hexa_x(), 1)[2..3]),
            "-0.000000050473552",
        ),
        finding(
            "F34",
            "from_geometry at 45, 135, 225 and 315 degrees, row 1",
            listed(&frame_row(&MixerN::from_geometry(&quad_angles), 0)),
            "1, -0.9999999, 0.9999999, -1",
        ),
        finding(
            "F35",
            "trailing zero bits of 1.570_312_5; bits of 4.837_513e-4 and of 7.549_79e-8",
            format!(
                "{}; {:08x}, {:08x}",
                1.570_312_5f32.to_bits().trailing_zeros(),
                4.837_513e-4f32.to_bits(),
                7.549_79e-8f32.to_bits()
            ),
            "16; 39fda000, 33a22169",
        ),
    ]
}
