//! Prints the script that crates/replay keeps: the short cases of every kind, from one seed.

use answers::{bad_means, generate as g};

fn main() {
    let mut d = g::Dice::new(1);
    let mut out = String::new();
    g::every_place(&mut out, &mut d);
    g::places(&mut out, &mut d, 600);
    g::conversions(&mut out, &mut d, 100);
    g::values(&mut out, &mut d, 200);
    g::roots(&mut out, &mut d, 60);
    g::every_setting(&mut out, 19);
    g::detectors(&mut out, &mut d, 600);
    g::lines(&mut out, &mut d, 100);
    g::every_refusal(&mut out, false);
    g::last_slots(&mut out, false);
    g::crowds(&mut out, &mut d);
    g::engines(&mut out, &mut d, 500, 60, g::Frames::Classic);
    g::one_engine(&mut out, &mut d, 30, true, g::Frames::Classic);
    g::remotes(&mut out, &[0, 1, 2, 3, 4, 5, 6, 7, 8, 9, 10, 11, 12, 13, 14, 15, 255]);
    g::reasons(&mut out, &[8], 5);
    g::every_bin(&mut out, [7]);
    g::every_state(&mut out, [5]);
    g::wrong_sizes(&mut out, &g::NO_BINS[..3], &g::NO_STATES[..3]);
    g::wrong_lengths(&mut out, [1, 16, 256], [1, 64]);
    g::thresholds(&mut out);
    g::full_counters(&mut out, &[(7, 255)], &[]);
    g::ratios(&mut out, 11);
    g::models(&mut out, &mut g::Dice::new(4), 600);
    g::payloads(&mut out, 'f', &[0, 8, 9, 12, 63, 64, 65, 255], &[64]);
    g::far_signals(&mut out, 'f', &[0, 7, 8, 9, 12, 40, 41, 63, 64, 65, 255], &[64]);
    g::given_bytes(&mut out, 'f');
    g::engines(&mut out, &mut g::Dice::new(5), 300, 60, g::Frames::Mixed);
    g::payloads(&mut out, 'F', &[64], &[0, 7, 9, 65]);
    g::far_signals(&mut out, 'F', &[12, 64], &[8, 40, 41, 300]);
    g::given_bytes(&mut out, 'F');
    g::lent_multiplexors(&mut out);
    g::one_engine(&mut out, &mut g::Dice::new(8), 60, false, g::Frames::Lent);
    out.extend(bad_means::detectors().into_iter().step_by(11));
    out.extend(bad_means::engines().into_iter().step_by(9));
    print!("{out}");
}
