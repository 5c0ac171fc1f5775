// A small recorder: sets a monitor up, hands it frames and prints the verdicts, in place; then two frames by value.
// examples/c/recorder.c and examples/python/recorder.py print the same lines. examples/run builds and runs all three.
#[allow(dead_code)]
mod mokyndu;
use mokyndu::{mokyndu_inspect_sv, GooseFrame, MmsFrame, Monitor, RetxSchedule, SvFrame, Verdict, NO_ERROR};

const SEVERITIES: [&str; 5] = ["info", "low", "medium", "high", "critical"];
const UNIT: [u8; 6] = [2, 0, 0, 0, 0, 1];
const SECOND: [u8; 6] = [2, 0, 0, 0, 0, 2];
const STRANGER: [u8; 6] = [2, 0, 0, 0, 0, 9];
const BLOCK: &[u8] = b"IED1LD0/LLN0$GO$gcb1";
const RAW: [u8; 39] = *b"\x01\x0C\xCD\x04\x00\x01\x02\x00\x00\x00\x00\x01\x88\xBA\x40\x00\x00\x19\x00\x00\x00\x00\
    \x60\x0F\x80\x01\x01\xA2\x0A\x30\x08\x80\x02M1\x82\x02\x00\x65";

fn name(octets: &[u8]) -> [u8; 64] {
    let mut out = [0; 64];
    out[..octets.len()].copy_from_slice(octets);
    out
}

fn said(allowed: u8) -> &'static str {
    if allowed != 0 { "allowed" } else { "refused" }
}

fn added(what: &str, error: u8) {
    match error {
        NO_ERROR => println!("{what}: added"),
        error => println!("{what}: error {error}"),
    }
}

fn verdict(what: &str, v: Verdict) {
    print!("{what}: {}", said(v.allowed));
    for a in &v.alerts[..v.alert_count as usize] {
        print!(", code {}, {}", a.code, SEVERITIES[a.severity as usize]);
    }
    println!();
}

fn sv_frame(src_mac: [u8; 6], smp_cnt: u16, timestamp_us: u64) -> SvFrame {
    SvFrame {
        src_mac, svid_len: 2, svid: name(b"M1"), smp_cnt, smp_rate: 4000, dataset_ref_len: 0, dataset_ref: [0; 64],
        timestamp_us, t_seconds_since_epoch: 0, t_fraction_of_second: 0,
    }
}

fn sv(m: &mut Monitor, what: &str, src_mac: [u8; 6], smp_cnt: u16, timestamp_us: u64) {
    verdict(what, m.sv_in_place(&sv_frame(src_mac, smp_cnt, timestamp_us)));
}

fn goose(m: &mut Monitor, what: &str, src_mac: [u8; 6], sq_num: u32, test: u8, timestamp_us: u64) {
    let frame = GooseFrame {
        src_mac, go_cb_ref: name(BLOCK), go_cb_ref_len: BLOCK.len() as u8, st_num: 7, sq_num, test,
        timestamp_us, t_seconds_since_epoch: 0, t_fraction_of_second: 0,
    };
    verdict(what, m.goose_in_place(&frame));
}

fn mms(m: &mut Monitor, what: &str, service: u8, invoke_id: u32, timestamp_us: u64) {
    let frame = MmsFrame {
        service_type: service, raw_service_type: service, domain: [0; 64], domain_len: 0, invoke_id, timestamp_us,
        client_id: 3, control_block_is_goose: 0,
    };
    verdict(what, m.mms_in_place(&frame));
}

fn raw_sv(m: &mut Monitor, what: &str, octets: &[u8], timestamp_us: u64) {
    let r = m.raw_sv_in_place(octets, timestamp_us);
    match r.error {
        NO_ERROR => verdict(what, r.verdict),
        error => println!("{what}: error {error}, {}", said(r.verdict.allowed)),
    }
}

// Two frames of the next counts, a replay, and a frame for whose verdict there is no room.
fn sv_batch(m: &mut Monitor, smp_cnt: u16, timestamp_us: u64) {
    let frames = [0, 1, 2, 3].map(|k| sv_frame(UNIT, smp_cnt + k % 2, timestamp_us + u64::from(k)));
    let mut verdicts = [Verdict::default(); 3];
    let inspected = m.sv_batch_in_place(&frames, &mut verdicts);
    println!("batch of 4 SV frames, room for 3 verdicts: {inspected} inspected");
    for (f, v) in frames.iter().zip(&verdicts[..inspected as usize]) {
        verdict(&format!("batch, SV frame {}", f.smp_cnt), *v);
    }
}

// The same by value: the monitor goes in and comes back, and the result has the alerts' numbers and times.
fn sv_by_value(m: &mut Monitor, what: &str, smp_cnt: u16, timestamp_us: u64) {
    let i = unsafe { mokyndu_inspect_sv(*m, sv_frame(UNIT, smp_cnt, timestamp_us)) };
    *m = i.monitor;
    print!("{what}: {}", said(i.result.allowed));
    for a in &i.result.alerts[..i.result.alert_count as usize] {
        print!(", alert {} of code {}, {}, at {} us", a.id, a.code, SEVERITIES[a.severity as usize], a.timestamp_us);
        print!(", source {} number {}", a.source_type, a.source_id);
    }
    println!();
}

fn configured() -> Monitor {
    let mut m = Monitor::UNSET;
    m.new_strict_in_place();
    m.set_mms_read_only_in_place(true);
    m.set_block_test_frames_in_place(true);
    m.set_sv_max_smp_cnt_gap_in_place(16);
    m.set_retx_schedule_in_place(RetxSchedule { initial_us: 2000, t_max_us: 1000000, tolerance_pct: 50 }, true);
    added("SV publisher M1", m.add_sv_publisher_in_place(&UNIT, b"M1", 4000));
    added("SV publisher of 65 octets", m.add_sv_publisher_in_place(&UNIT, &[0; 65], 0));
    added("GOOSE publisher", m.add_goose_publisher_in_place(&UNIT, BLOCK));
    added("GOOSE publisher of any name", m.add_goose_publisher_in_place(&SECOND, b""));
    added("MMS rule", m.add_mms_rule_in_place(0xFFFF, false, 1));
    m
}

fn main() {
    let mut m = configured();
    let mut damaged = RAW;
    damaged[30] += 1;
    sv(&mut m, "SV frame 100", UNIT, 100, 1000000);
    sv(&mut m, "SV frame 100 again", UNIT, 100, 1000250);
    sv(&mut m, "SV frame of another address", STRANGER, 101, 1000500);
    raw_sv(&mut m, "raw SV frame 101", &RAW, 1000750);
    raw_sv(&mut m, "raw SV frame, one octet damaged", &damaged, 1001000);
    sv_batch(&mut m, 102, 1002000);
    goose(&mut m, "GOOSE frame", UNIT, 0, 0, 2000000);
    goose(&mut m, "GOOSE frame too late", UNIT, 1, 0, 2007000);
    goose(&mut m, "GOOSE test frame", UNIT, 2, 1, 2066000);
    goose(&mut m, "GOOSE frame of another address", STRANGER, 2, 0, 2066000);
    mms(&mut m, "MMS read", 1, 12, 3000000);
    mms(&mut m, "MMS read above the rate", 1, 12, 3000100);
    mms(&mut m, "MMS write", 2, 13, 3000200);
    sv_by_value(&mut m, "by value, SV frame 104", 104, 4000000);
    sv_by_value(&mut m, "by value, SV frame 104 again", 104, 4000250);
    print!("strict {}, MMS {}, ", u8::from(m.strict_mode_in_place()), m.mms_total_inspected_in_place());
    print!("GOOSE {}, SV {}, ", m.goose_total_inspected_in_place(), m.sv_total_inspected_in_place());
    println!("alerts {}", m.total_alerts_in_place());
}
