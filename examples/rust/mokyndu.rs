// The exports of libhost.a for Rust; crates/host/include/mokyndu.h says what each call does. A call in place is a method of `Monitor` too,
// with the name of the export but for `mokyndu_`: `m.sv_in_place(&frame)` is `mokyndu_sv_in_place(&mut m, &frame)`.
use std::mem::{size_of, size_of_val};

// The whole state of a monitor, in words of the engine's own.
#[repr(C)]
#[derive(Clone, Copy)]
pub struct Monitor {
    words: [u64; 1148],
}

#[repr(C)]
#[derive(Clone, Copy)]
pub struct RetxSchedule {
    pub initial_us: u32,
    pub t_max_us: u32,
    pub tolerance_pct: u8,
}

#[repr(C)]
#[derive(Clone, Copy)]
pub struct MmsFrame {
    pub service_type: u8,
    pub raw_service_type: u8,
    pub domain: [u8; 64],
    pub domain_len: u8,
    pub invoke_id: u32,
    pub timestamp_us: u64,
    pub client_id: u32,
    pub control_block_is_goose: u8,
}

#[repr(C)]
#[derive(Clone, Copy)]
pub struct GooseFrame {
    pub src_mac: [u8; 6],
    pub go_cb_ref: [u8; 64],
    pub go_cb_ref_len: u8,
    pub st_num: u32,
    pub sq_num: u32,
    pub test: u8,
    pub timestamp_us: u64,
    pub t_seconds_since_epoch: u32,
    pub t_fraction_of_second: u32,
}

#[repr(C)]
#[derive(Clone, Copy)]
pub struct SvFrame {
    pub src_mac: [u8; 6],
    pub svid_len: u8,
    pub svid: [u8; 64],
    pub smp_cnt: u16,
    pub smp_rate: u16,
    pub dataset_ref_len: u8,
    pub dataset_ref: [u8; 64],
    pub timestamp_us: u64,
    pub t_seconds_since_epoch: u32,
    pub t_fraction_of_second: u32,
}

#[repr(C)]
#[derive(Clone, Copy, Default)]
pub struct VerdictAlert {
    pub code: u8,
    pub severity: u8,
}

#[repr(C)]
#[derive(Clone, Copy, Default)]
pub struct Verdict {
    pub allowed: u8,
    pub alert_count: u8,
    pub alerts: [VerdictAlert; 3],
}

#[repr(C)]
#[derive(Clone, Copy)]
pub struct RawVerdict {
    pub verdict: Verdict,
    pub error: u8,
}

#[repr(C)]
#[derive(Clone, Copy)]
pub struct Alert {
    pub id: u64,
    pub timestamp_us: u64,
    pub payload_hash: [u8; 32],
    pub source_id: u32,
    pub severity: u8,
    pub source_type: u8,
    pub code: u8,
}

#[repr(C)]
#[derive(Clone, Copy)]
pub struct Result {
    pub allowed: u8,
    pub alert_count: u8,
    pub source_type: u8,
    pub alerts_truncated: u8,
    pub alerts: [Alert; 4],
}

#[repr(C)]
pub struct Configured {
    pub monitor: Monitor,
    pub error: u8,
}

#[repr(C)]
pub struct Inspected {
    pub monitor: Monitor,
    pub result: Result,
}

#[repr(C)]
pub struct RawInspected {
    pub monitor: Monitor,
    pub result: Result,
    pub error: u8,
}

#[repr(C)]
pub struct Parsed {
    pub frame: SvFrame,
    pub error: u8,
}

const _: () = assert!(size_of::<Monitor>() == 9184 && size_of::<RetxSchedule>() == 12);
const _: () = assert!(size_of::<MmsFrame>() == 88 && size_of::<GooseFrame>() == 104 && size_of::<SvFrame>() == 160);
const _: () = assert!(size_of::<Verdict>() == 8 && size_of::<RawVerdict>() == 9);
const _: () = assert!(size_of::<Alert>() == 56 && size_of::<Result>() == 232 && size_of::<Configured>() == 9192);
const _: () = assert!(size_of::<Inspected>() == 9416 && size_of::<RawInspected>() == 9424 && size_of::<Parsed>() == 168);

// In the place of an error's number: added, or read.
pub const NO_ERROR: u8 = 255;

// In place.
extern "C" {
    pub fn mokyndu_new_in_place(monitor: &mut Monitor);
    pub fn mokyndu_new_strict_in_place(monitor: &mut Monitor);
    pub fn mokyndu_reset_in_place(monitor: &mut Monitor);
    pub fn mokyndu_set_mms_service_mask_in_place(monitor: &mut Monitor, mask: u16);
    pub fn mokyndu_set_mms_read_only_in_place(monitor: &mut Monitor, read_only: u8);
    pub fn mokyndu_set_block_test_frames_in_place(monitor: &mut Monitor, block: u8);
    pub fn mokyndu_set_sv_max_smp_cnt_gap_in_place(monitor: &mut Monitor, gap: u16);
    pub fn mokyndu_set_retx_schedule_in_place(monitor: &mut Monitor, schedule: RetxSchedule, enforce: u8);
    pub fn mokyndu_set_time_max_forward_jump_s_in_place(monitor: &mut Monitor, seconds: u32);
    pub fn mokyndu_add_mms_rule_in_place(monitor: &mut Monitor, service_mask: u16, read_only: u8, max_rate_per_sec: u16) -> u8;
    pub fn mokyndu_add_goose_publisher_in_place(monitor: &mut Monitor, src_mac: &[u8; 6], go_cb_ref: *const u8, len: usize) -> u8;
    pub fn mokyndu_add_sv_publisher_in_place(
        monitor: &mut Monitor, src_mac: &[u8; 6], svid: *const u8, len: usize, expected_smp_rate: u16,
    ) -> u8;
    pub fn mokyndu_mms_in_place(monitor: &mut Monitor, frame: &MmsFrame) -> Verdict;
    pub fn mokyndu_goose_in_place(monitor: &mut Monitor, frame: &GooseFrame) -> Verdict;
    pub fn mokyndu_sv_in_place(monitor: &mut Monitor, frame: &SvFrame) -> Verdict;
    pub fn mokyndu_raw_sv_in_place(monitor: &mut Monitor, octets: *const u8, len: usize, timestamp_us: u64) -> RawVerdict;
    pub fn mokyndu_sv_batch_in_place(
        monitor: &mut Monitor, frames: *const SvFrame, frames_len: usize, verdicts: *mut Verdict, verdicts_len: usize,
    ) -> u64;
    pub fn mokyndu_mms_total_inspected_in_place(monitor: &Monitor) -> u64;
    pub fn mokyndu_goose_total_inspected_in_place(monitor: &Monitor) -> u64;
    pub fn mokyndu_sv_total_inspected_in_place(monitor: &Monitor) -> u64;
    pub fn mokyndu_total_alerts_in_place(monitor: &Monitor) -> u64;
    pub fn mokyndu_strict_mode_in_place(monitor: &Monitor) -> u8;
}

// By value.
extern "C" {
    pub fn mokyndu_new() -> Monitor;
    pub fn mokyndu_new_strict() -> Monitor;
    pub fn mokyndu_reset(monitor: Monitor) -> Monitor;
    pub fn mokyndu_set_mms_service_mask(monitor: Monitor, mask: u16) -> Monitor;
    pub fn mokyndu_set_mms_read_only(monitor: Monitor, read_only: u8) -> Monitor;
    pub fn mokyndu_set_block_test_frames(monitor: Monitor, block: u8) -> Monitor;
    pub fn mokyndu_set_sv_max_smp_cnt_gap(monitor: Monitor, gap: u16) -> Monitor;
    pub fn mokyndu_set_retx_schedule(monitor: Monitor, schedule: RetxSchedule, enforce: u8) -> Monitor;
    pub fn mokyndu_set_time_max_forward_jump_s(monitor: Monitor, seconds: u32) -> Monitor;
    pub fn mokyndu_add_mms_rule(monitor: Monitor, service_mask: u16, read_only: u8, max_rate_per_sec: u16) -> Configured;
    pub fn mokyndu_add_goose_publisher(monitor: Monitor, src_mac: &[u8; 6], go_cb_ref: *const u8, len: usize) -> Configured;
    pub fn mokyndu_add_sv_publisher(monitor: Monitor, src_mac: &[u8; 6], svid: *const u8, len: usize, expected_smp_rate: u16) -> Configured;
    pub fn mokyndu_inspect_mms(monitor: Monitor, frame: MmsFrame) -> Inspected;
    pub fn mokyndu_inspect_goose(monitor: Monitor, frame: GooseFrame) -> Inspected;
    pub fn mokyndu_inspect_sv(monitor: Monitor, frame: SvFrame) -> Inspected;
    pub fn mokyndu_inspect_raw_sv(monitor: Monitor, octets: *const u8, len: usize, timestamp_us: u64) -> RawInspected;
    pub fn mokyndu_parse_sv(octets: *const u8, len: usize, timestamp_us: u64) -> Parsed;
    pub fn mokyndu_mms_total_inspected(monitor: Monitor) -> u64;
    pub fn mokyndu_goose_total_inspected(monitor: Monitor) -> u64;
    pub fn mokyndu_sv_total_inspected(monitor: Monitor) -> u64;
    pub fn mokyndu_total_alerts(monitor: Monitor) -> u64;
    pub fn mokyndu_strict_mode(monitor: Monitor) -> u8;
}

// Safe: any words are a monitor, any octets a frame, and a reference or a slice is what each call asks for.
impl Monitor {
    // Words in which `new_in_place` or `new_strict_in_place` makes a monitor.
    pub const UNSET: Monitor = Monitor { words: [0; 1148] };

    pub fn new_in_place(&mut self) {
        unsafe { mokyndu_new_in_place(self) }
    }

    pub fn new_strict_in_place(&mut self) {
        unsafe { mokyndu_new_strict_in_place(self) }
    }

    pub fn reset_in_place(&mut self) {
        unsafe { mokyndu_reset_in_place(self) }
    }

    pub fn set_mms_service_mask_in_place(&mut self, mask: u16) {
        unsafe { mokyndu_set_mms_service_mask_in_place(self, mask) }
    }

    pub fn set_mms_read_only_in_place(&mut self, read_only: bool) {
        unsafe { mokyndu_set_mms_read_only_in_place(self, read_only.into()) }
    }

    pub fn set_block_test_frames_in_place(&mut self, block: bool) {
        unsafe { mokyndu_set_block_test_frames_in_place(self, block.into()) }
    }

    pub fn set_sv_max_smp_cnt_gap_in_place(&mut self, gap: u16) {
        unsafe { mokyndu_set_sv_max_smp_cnt_gap_in_place(self, gap) }
    }

    pub fn set_retx_schedule_in_place(&mut self, schedule: RetxSchedule, enforce: bool) {
        unsafe { mokyndu_set_retx_schedule_in_place(self, schedule, enforce.into()) }
    }

    pub fn set_time_max_forward_jump_s_in_place(&mut self, seconds: u32) {
        unsafe { mokyndu_set_time_max_forward_jump_s_in_place(self, seconds) }
    }

    pub fn add_mms_rule_in_place(&mut self, service_mask: u16, read_only: bool, max_rate_per_sec: u16) -> u8 {
        unsafe { mokyndu_add_mms_rule_in_place(self, service_mask, read_only.into(), max_rate_per_sec) }
    }

    pub fn add_goose_publisher_in_place(&mut self, src_mac: &[u8; 6], go_cb_ref: &[u8]) -> u8 {
        unsafe { mokyndu_add_goose_publisher_in_place(self, src_mac, go_cb_ref.as_ptr(), go_cb_ref.len()) }
    }

    pub fn add_sv_publisher_in_place(&mut self, src_mac: &[u8; 6], svid: &[u8], expected_smp_rate: u16) -> u8 {
        unsafe { mokyndu_add_sv_publisher_in_place(self, src_mac, svid.as_ptr(), svid.len(), expected_smp_rate) }
    }

    pub fn mms_in_place(&mut self, frame: &MmsFrame) -> Verdict {
        unsafe { mokyndu_mms_in_place(self, frame) }
    }

    pub fn goose_in_place(&mut self, frame: &GooseFrame) -> Verdict {
        unsafe { mokyndu_goose_in_place(self, frame) }
    }

    pub fn sv_in_place(&mut self, frame: &SvFrame) -> Verdict {
        unsafe { mokyndu_sv_in_place(self, frame) }
    }

    pub fn raw_sv_in_place(&mut self, octets: &[u8], timestamp_us: u64) -> RawVerdict {
        unsafe { mokyndu_raw_sv_in_place(self, octets.as_ptr(), octets.len(), timestamp_us) }
    }

    pub fn sv_batch_in_place(&mut self, frames: &[SvFrame], verdicts: &mut [Verdict]) -> u64 {
        let (frames_len, verdicts_len) = (size_of_val(frames), size_of_val(verdicts));
        unsafe { mokyndu_sv_batch_in_place(self, frames.as_ptr(), frames_len, verdicts.as_mut_ptr(), verdicts_len) }
    }

    pub fn mms_total_inspected_in_place(&self) -> u64 {
        unsafe { mokyndu_mms_total_inspected_in_place(self) }
    }

    pub fn goose_total_inspected_in_place(&self) -> u64 {
        unsafe { mokyndu_goose_total_inspected_in_place(self) }
    }

    pub fn sv_total_inspected_in_place(&self) -> u64 {
        unsafe { mokyndu_sv_total_inspected_in_place(self) }
    }

    pub fn total_alerts_in_place(&self) -> u64 {
        unsafe { mokyndu_total_alerts_in_place(self) }
    }

    pub fn strict_mode_in_place(&self) -> bool {
        unsafe { mokyndu_strict_mode_in_place(self) != 0 }
    }
}
