// Times the Rust `Iec61850Monitor` and this engine (the static library `host`) on the same frames in one run, and writes a table of
// nanoseconds for each frame: bench [ROUNDS] [FRAMES]. Built and started by `run`.
use iec61850_monitor as rust;
use std::hint::black_box;
use std::time::Instant;
use vs_types_ind::SvFrame;

#[allow(dead_code)]
#[path = "../examples/rust/mokyndu.rs"]
mod mokyndu;
use mokyndu::{GooseFrame, MmsFrame, Monitor, Verdict};
use mokyndu::{mokyndu_add_mms_rule, mokyndu_inspect_goose, mokyndu_inspect_mms, mokyndu_inspect_raw_sv, mokyndu_inspect_sv, mokyndu_new};

// What a way of inspecting took, in nanoseconds for each frame of each round, and how many frames it allowed.
struct Timed {
    rounds: Vec<f64>,
    allowed: u64,
}

impl Timed {
    fn best(&self) -> f64 {
        self.rounds.iter().copied().fold(f64::MAX, f64::min)
    }

    fn median(&self) -> f64 {
        let mut sorted = self.rounds.clone();
        sorted.sort_by(f64::total_cmp);
        sorted[sorted.len() / 2]
    }
}

// Runs each way once in each round, so that all of them meet the same moments of a busy machine.
fn timed(rounds: usize, frames: usize, ways: &mut [&mut dyn FnMut() -> u64]) -> Vec<Timed> {
    let mut out: Vec<Timed> = ways.iter().map(|_| Timed { rounds: Vec::new(), allowed: 0 }).collect();
    for _ in 0..rounds {
        for (way, timed) in ways.iter_mut().zip(&mut out) {
            let start = Instant::now();
            timed.allowed = way();
            timed.rounds.push(start.elapsed().as_nanos() as f64 / frames as f64);
        }
    }
    out
}

// Writes the row of a table: the Rust's time, and of each other way its time and the ratio to the Rust's best. The first column of
// those is the batch's, which only SV frames have.
fn row(name: &str, batch: bool, ways: &[Timed]) {
    let rust = ways[0].best();
    print!("| {name} | {:.0} / {:.0} |{}", rust, ways[0].median(), if batch { "" } else { " | |" });
    for way in &ways[1..] {
        print!(" {:.0} / {:.0} | {:.2} |", way.best(), way.median(), way.best() / rust);
        assert_eq!(way.allowed, ways[0].allowed, "{name}: the verdicts differ");
    }
    println!();
}

// A monitor for the calls in place.
fn placed() -> Monitor {
    let mut m = Monitor::UNSET;
    m.new_in_place();
    m
}

fn svid(stream: usize, len: usize) -> [u8; 64] {
    let mut octets = [0; 64];
    octets[..len].fill(b'M');
    octets[len - 2] = b'0' + (stream / 10) as u8;
    octets[len - 1] = b'0' + (stream % 10) as u8;
    octets
}

// SV frames whose counts go on, or stand still: then all but the first of each stream are refused.
fn sv_frames(frames: usize, streams: usize, len: usize, going: bool) -> Vec<mokyndu::SvFrame> {
    (0..frames)
        .map(|k| mokyndu::SvFrame {
            src_mac: [2, 0, 0, 0, 0, (k % streams) as u8],
            svid_len: len as u8,
            svid: svid(k % streams, len),
            smp_cnt: if going { (k / streams) as u16 } else { 7 },
            smp_rate: 4000,
            dataset_ref_len: 0,
            dataset_ref: [0; 64],
            timestamp_us: k as u64,
            t_seconds_since_epoch: 0,
            t_fraction_of_second: 0,
        })
        .collect()
}

fn their_sv(f: &mokyndu::SvFrame) -> SvFrame {
    SvFrame {
        src_mac: f.src_mac,
        svid_len: f.svid_len,
        svid: f.svid,
        smp_cnt: f.smp_cnt,
        smp_rate: f.smp_rate,
        dataset_ref_len: f.dataset_ref_len,
        dataset_ref: f.dataset_ref,
        timestamp_us: f.timestamp_us,
        t_seconds_since_epoch: f.t_seconds_since_epoch,
        t_fraction_of_second: f.t_fraction_of_second,
    }
}

fn sv_row(rounds: usize, frames: usize, streams: usize, len: usize, going: bool) {
    let ours = sv_frames(frames, streams, len, going);
    let theirs: Vec<SvFrame> = ours.iter().map(their_sv).collect();
    let mut verdicts = vec![Verdict::default(); frames];
    let ways = timed(rounds, frames, &mut [
        &mut || {
            let mut m = rust::Iec61850Monitor::new();
            theirs.iter().filter(|f| m.inspect_sv(black_box(f)).allowed).count() as u64
        },
        &mut || {
            assert_eq!(placed().sv_batch_in_place(&ours, &mut verdicts), frames as u64, "all frames inspected");
            verdicts.iter().filter(|v| v.allowed == 1).count() as u64
        },
        &mut || {
            let mut m = placed();
            ours.iter().filter(|f| m.sv_in_place(black_box(f)).allowed == 1).count() as u64
        },
        &mut || unsafe {
            let mut m = mokyndu_new();
            let mut allowed = 0;
            for f in &ours {
                let i = mokyndu_inspect_sv(m, *black_box(f));
                m = i.monitor;
                allowed += i.result.allowed as u64;
            }
            allowed
        },
    ]);
    let verdict = if going { "" } else { ", refused" };
    row(&format!("SV, {streams} streams, svID of {len} octets{verdict}"), true, &ways);
}

// What a call by value costs that does nothing: the monitor and a frame in, the monitor and a result out.
#[inline(never)]
extern "C" fn give_back(monitor: mokyndu::Monitor, frame: mokyndu::SvFrame) -> mokyndu::Inspected {
    let mut result: mokyndu::Result = unsafe { std::mem::zeroed() };
    result.allowed = frame.svid_len;
    mokyndu::Inspected { monitor, result }
}

fn nothing_done(rounds: usize, frames: usize) {
    let mut frame: mokyndu::SvFrame = unsafe { std::mem::zeroed() };
    frame.svid_len = 1;
    let ways = timed(rounds, frames, &mut [&mut || {
        let mut m = unsafe { mokyndu_new() };
        let mut allowed = 0;
        for _ in 0..frames {
            let i = give_back(m, *black_box(&frame));
            m = i.monitor;
            allowed += i.result.allowed as u64;
        }
        black_box(&m);
        allowed
    }]);
    println!("\nA call by value of the same monitor, frame and result that does nothing: {:.0} / {:.0}", ways[0].best(), ways[0].median());
}

fn goose_frames(frames: usize, streams: usize) -> Vec<GooseFrame> {
    (0..frames)
        .map(|k| GooseFrame {
            src_mac: [2, 0, 0, 0, 0, (k % streams) as u8],
            go_cb_ref: svid(k % streams, 20),
            go_cb_ref_len: 20,
            st_num: 1,
            sq_num: (k / streams) as u32,
            test: 0,
            timestamp_us: k as u64,
            t_seconds_since_epoch: 0,
            t_fraction_of_second: 0,
        })
        .collect()
}

fn their_goose(f: &GooseFrame) -> rust::GooseFrame {
    rust::GooseFrame {
        src_mac: f.src_mac,
        go_cb_ref: f.go_cb_ref,
        go_cb_ref_len: f.go_cb_ref_len,
        st_num: f.st_num,
        sq_num: f.sq_num,
        test: f.test != 0,
        timestamp_us: f.timestamp_us,
        t_seconds_since_epoch: f.t_seconds_since_epoch,
        t_fraction_of_second: f.t_fraction_of_second,
    }
}

fn goose_row(rounds: usize, frames: usize, streams: usize) {
    let ours = goose_frames(frames, streams);
    let theirs: Vec<rust::GooseFrame> = ours.iter().map(their_goose).collect();
    let ways = timed(rounds, frames, &mut [
        &mut || {
            let mut m = rust::Iec61850Monitor::new();
            theirs.iter().filter(|f| m.inspect_goose(black_box(f)).allowed).count() as u64
        },
        &mut || {
            let mut m = placed();
            ours.iter().filter(|f| m.goose_in_place(black_box(f)).allowed == 1).count() as u64
        },
        &mut || unsafe {
            let mut m = mokyndu_new();
            let mut allowed = 0;
            for f in &ours {
                let i = mokyndu_inspect_goose(m, *black_box(f));
                m = i.monitor;
                allowed += i.result.allowed as u64;
            }
            allowed
        },
    ]);
    row(&format!("GOOSE, {streams} streams"), false, &ways);
}

fn mms_frames(frames: usize) -> Vec<MmsFrame> {
    (0..frames)
        .map(|k| MmsFrame {
            service_type: 4,
            raw_service_type: 4,
            domain: svid(0, 20),
            domain_len: 20,
            invoke_id: (k % 16) as u32,
            timestamp_us: k as u64 * 1000,
            client_id: 1,
            control_block_is_goose: 0,
        })
        .collect()
}

fn their_mms(f: &MmsFrame) -> rust::MmsFrame {
    rust::MmsFrame {
        service_type: rust::MmsServiceType::from_u8(f.service_type),
        raw_service_type: f.raw_service_type,
        domain: f.domain,
        domain_len: f.domain_len,
        invoke_id: f.invoke_id,
        timestamp_us: f.timestamp_us,
        client_id: f.client_id,
        control_block_is_goose: f.control_block_is_goose != 0,
    }
}

fn mms_row(rounds: usize, frames: usize) {
    let ours = mms_frames(frames);
    let theirs: Vec<rust::MmsFrame> = ours.iter().map(their_mms).collect();
    let ways = timed(rounds, frames, &mut [
        &mut || {
            let mut m = rust::Iec61850Monitor::new();
            m.add_mms_rule(0xFFFF, false, 50).expect("a rule");
            theirs.iter().filter(|f| m.inspect_mms(black_box(f)).allowed).count() as u64
        },
        &mut || {
            let mut m = placed();
            m.add_mms_rule_in_place(0xFFFF, false, 50);
            ours.iter().filter(|f| m.mms_in_place(black_box(f)).allowed == 1).count() as u64
        },
        &mut || unsafe {
            let mut m = mokyndu_add_mms_rule(mokyndu_new(), 0xFFFF, 0, 50).monitor;
            let mut allowed = 0;
            for f in &ours {
                let i = mokyndu_inspect_mms(m, *black_box(f));
                m = i.monitor;
                allowed += i.result.allowed as u64;
            }
            allowed
        },
    ]);
    row("MMS with rates, 16 keys", false, &ways);
}

// A raw SV frame of 39 octets, or more: then samples (tag 87) fill it up. Each part is a tag, its length and its content.
fn raw_frame(stream: usize, count: u16, octets: usize) -> Vec<u8> {
    let part = |tag: u8, content: &[u8]| [&[tag, content.len() as u8][..], content].concat();
    let digits = [b'0' + (stream / 10) as u8, b'0' + (stream % 10) as u8];
    let mut asdu = [part(0x80, &digits), part(0x82, &count.to_be_bytes())].concat();
    if octets > 39 {
        asdu.extend(part(0x87, &vec![0; octets - 41]));
    }
    let apdu = part(0x60, &[part(0x80, &[1]), part(0xA2, &part(0x30, &asdu))].concat());
    let mut frame = vec![1, 0x0C, 0xCD, 4, 0, 1, 2, 0, 0, 0, 0, stream as u8, 0x88, 0xBA, 0x40, 0];
    frame.extend((apdu.len() as u16 + 8).to_be_bytes());
    frame.extend([0; 4]);
    frame.extend(apdu);
    assert_eq!(frame.len(), octets);
    frame
}

fn raw_row(rounds: usize, frames: usize, octets: usize) {
    let raw: Vec<Vec<u8>> = (0..frames).map(|k| raw_frame(k % 8, (k / 8) as u16, octets)).collect();
    let ways = timed(rounds, frames, &mut [
        &mut || {
            let mut m = rust::Iec61850Monitor::new();
            let mut allowed = 0;
            for (k, octets) in raw.iter().enumerate() {
                if let Ok(f) = rust::Iec61850Monitor::parse_sv(black_box(octets), k as u64) {
                    allowed += m.inspect_sv(&f).allowed as u64;
                }
            }
            allowed
        },
        &mut || {
            let mut m = placed();
            raw.iter().enumerate().filter(|(k, octets)| m.raw_sv_in_place(black_box(octets), *k as u64).verdict.allowed == 1).count() as u64
        },
        &mut || unsafe {
            let mut m = mokyndu_new();
            let mut allowed = 0;
            for (k, octets) in raw.iter().enumerate() {
                let i = mokyndu_inspect_raw_sv(m, black_box(octets).as_ptr(), octets.len(), k as u64);
                m = i.monitor;
                allowed += i.result.allowed as u64;
            }
            allowed
        },
    ]);
    assert!(ways[0].allowed > 0, "the raw frames are read");
    row(&format!("raw SV, 8 streams, {octets} octets"), false, &ways);
}

fn main() {
    let mut args = std::env::args().skip(1).map(|a| a.parse().expect("a number"));
    let rounds = args.next().unwrap_or(7);
    let frames = args.next().unwrap_or(200_000);
    println!("{rounds} rounds of {frames} frames; best / median, nanoseconds a frame; ratios of the best times\n");
    println!("| frames | the Rust | batch | ratio | one call in place | ratio | one call by value | ratio |");
    println!("|---|---|---|---|---|---|---|---|");
    for len in [4, 30] {
        for streams in [1, 8, 16, 17] {
            sv_row(rounds, frames, streams, len, true);
        }
    }
    sv_row(rounds, frames, 8, 4, false);
    goose_row(rounds, frames, 16);
    goose_row(rounds, frames, 17);
    mms_row(rounds, frames);
    raw_row(rounds, frames, 39);
    raw_row(rounds, frames, 120);
    nothing_done(rounds, frames);
}
