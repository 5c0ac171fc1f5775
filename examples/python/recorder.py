# A small recorder: sets a monitor up, hands it frames and prints the verdicts, in place; then two frames by value.
# examples/c/recorder.c and examples/rust/recorder.rs print the same lines. examples/run makes the shared object of libhost.a and starts
# this with its path. crates/host/include/mokyndu.h says what each call does.
import ctypes
import sys
from ctypes import POINTER, Structure, byref, c_char, c_char_p, c_size_t, c_uint8, c_uint16, c_uint32, c_uint64, c_void_p, sizeof

SEVERITIES = ["info", "low", "medium", "high", "critical"]
UNIT, SECOND, STRANGER = (bytes([2, 0, 0, 0, 0, last]) for last in (1, 2, 9))
BLOCK = b"IED1LD0/LLN0$GO$gcb1"
RAW = bytes.fromhex("010ccd040001 020000000001 88ba 4000 0019 00000000 600f 800101 a20a 3008 80024d31 82020065")
NO_ERROR = 255


class Monitor(Structure):
    _fields_ = [("words", c_uint64 * 1148)]


class RetxSchedule(Structure):
    _fields_ = [("initial_us", c_uint32), ("t_max_us", c_uint32), ("tolerance_pct", c_uint8)]


class MmsFrame(Structure):
    _fields_ = [
        ("service_type", c_uint8), ("raw_service_type", c_uint8), ("domain", c_char * 64), ("domain_len", c_uint8),
        ("invoke_id", c_uint32), ("timestamp_us", c_uint64), ("client_id", c_uint32), ("control_block_is_goose", c_uint8)]


class GooseFrame(Structure):
    _fields_ = [
        ("src_mac", c_uint8 * 6), ("go_cb_ref", c_char * 64), ("go_cb_ref_len", c_uint8), ("st_num", c_uint32),
        ("sq_num", c_uint32), ("test", c_uint8), ("timestamp_us", c_uint64), ("t_seconds_since_epoch", c_uint32),
        ("t_fraction_of_second", c_uint32)]


class SvFrame(Structure):
    _fields_ = [
        ("src_mac", c_uint8 * 6), ("svid_len", c_uint8), ("svid", c_char * 64), ("smp_cnt", c_uint16), ("smp_rate", c_uint16),
        ("dataset_ref_len", c_uint8), ("dataset_ref", c_char * 64), ("timestamp_us", c_uint64),
        ("t_seconds_since_epoch", c_uint32), ("t_fraction_of_second", c_uint32)]


class VerdictAlert(Structure):
    _fields_ = [("code", c_uint8), ("severity", c_uint8)]


class Verdict(Structure):
    _fields_ = [("allowed", c_uint8), ("alert_count", c_uint8), ("alerts", VerdictAlert * 3)]


class RawVerdict(Structure):
    _fields_ = [("verdict", Verdict), ("error", c_uint8)]


class Alert(Structure):
    _fields_ = [
        ("id", c_uint64), ("timestamp_us", c_uint64), ("payload_hash", c_uint8 * 32), ("source_id", c_uint32),
        ("severity", c_uint8), ("source_type", c_uint8), ("code", c_uint8)]


class Result(Structure):
    _fields_ = [
        ("allowed", c_uint8), ("alert_count", c_uint8), ("source_type", c_uint8), ("alerts_truncated", c_uint8),
        ("alerts", Alert * 4)]


class Inspected(Structure):
    _fields_ = [("monitor", Monitor), ("result", Result)]


SIZES = [(Monitor, 9184), (MmsFrame, 88), (GooseFrame, 104), (SvFrame, 160), (Verdict, 8), (RawVerdict, 9), (Result, 232)]
assert all(sizeof(layout) == size for layout, size in SIZES)

# What each call that is used here takes behind the monitor, and what it answers.
IN_PLACE = {
    "new_strict": ([], None),
    "set_mms_read_only": ([c_uint8], None),
    "set_block_test_frames": ([c_uint8], None),
    "set_sv_max_smp_cnt_gap": ([c_uint16], None),
    "set_retx_schedule": ([RetxSchedule, c_uint8], None),
    "add_mms_rule": ([c_uint16, c_uint8, c_uint16], c_uint8),
    "add_goose_publisher": ([c_char_p, c_char_p, c_size_t], c_uint8),
    "add_sv_publisher": ([c_char_p, c_char_p, c_size_t, c_uint16], c_uint8),
    "mms": ([POINTER(MmsFrame)], Verdict),
    "goose": ([POINTER(GooseFrame)], Verdict),
    "sv": ([POINTER(SvFrame)], Verdict),
    "raw_sv": ([c_char_p, c_size_t, c_uint64], RawVerdict),
    "sv_batch": ([c_void_p, c_size_t, c_void_p, c_size_t], c_uint64),
    "mms_total_inspected": ([], c_uint64),
    "goose_total_inspected": ([], c_uint64),
    "sv_total_inspected": ([], c_uint64),
    "total_alerts": ([], c_uint64),
    "strict_mode": ([], c_uint8),
}


class Recorder:
    def __init__(self, path):
        self.library = ctypes.CDLL(path)
        self.monitor = Monitor()
        for name, (takes, answers) in IN_PLACE.items():
            call = getattr(self.library, f"mokyndu_{name}_in_place")
            call.argtypes, call.restype = [POINTER(Monitor), *takes], answers
        self.by_value = self.library.mokyndu_inspect_sv
        self.by_value.argtypes, self.by_value.restype = [Monitor, SvFrame], Inspected

    def in_place(self, name, *arguments):
        return getattr(self.library, f"mokyndu_{name}_in_place")(byref(self.monitor), *arguments)

    def added(self, what, name, *arguments):
        error = self.in_place(name, *arguments)
        print(f"{what}: added" if error == NO_ERROR else f"{what}: error {error}")

    def sv(self, what, mac, count, time):
        verdict(what, self.in_place("sv", sv_frame(mac, count, time)))

    def goose(self, what, mac, sq, test, time):
        frame = GooseFrame(
            src_mac=tuple(mac), go_cb_ref=BLOCK, go_cb_ref_len=len(BLOCK), st_num=7, sq_num=sq, test=test, timestamp_us=time)
        verdict(what, self.in_place("goose", frame))

    def mms(self, what, service, invoke_id, time):
        frame = MmsFrame(service_type=service, raw_service_type=service, invoke_id=invoke_id, timestamp_us=time, client_id=3)
        verdict(what, self.in_place("mms", frame))

    def raw_sv(self, what, octets, time):
        raw = self.in_place("raw_sv", octets, len(octets), time)
        if raw.error == NO_ERROR:
            verdict(what, raw.verdict)
        else:
            print(f"{what}: error {raw.error}, {said(raw.verdict)}")

    # Two frames of the next counts, a replay, and a frame for whose verdict there is no room.
    def sv_batch(self, count, time):
        frames = (SvFrame * 4)(*(sv_frame(UNIT, count + k % 2, time + k) for k in range(4)))
        verdicts = (Verdict * 3)()
        inspected = self.in_place("sv_batch", frames, sizeof(frames), verdicts, sizeof(verdicts))
        print(f"batch of 4 SV frames, room for 3 verdicts: {inspected} inspected")
        for frame, v in zip(frames, verdicts[:inspected]):
            verdict(f"batch, SV frame {frame.smp_cnt}", v)

    # The same by value: the monitor goes in and comes back, and the result has the alerts' numbers and times.
    def sv_by_value(self, what, count, time):
        inspected = self.by_value(self.monitor, sv_frame(UNIT, count, time))
        self.monitor, result = inspected.monitor, inspected.result
        alerts = "".join(
            f", alert {a.id} of code {a.code}, {SEVERITIES[a.severity]}, at {a.timestamp_us} us, source {a.source_type}"
            f" number {a.source_id}" for a in result.alerts[:result.alert_count])
        print(f"{what}: {said(result)}{alerts}")


def said(answer):
    return "allowed" if answer.allowed else "refused"


def verdict(what, v):
    print(f"{what}: {said(v)}" + "".join(f", code {a.code}, {SEVERITIES[a.severity]}" for a in v.alerts[:v.alert_count]))


def sv_frame(mac, count, time):
    return SvFrame(src_mac=tuple(mac), svid_len=2, svid=b"M1", smp_cnt=count, smp_rate=4000, timestamp_us=time)


def main():
    r = Recorder(sys.argv[1])
    r.in_place("new_strict")
    r.in_place("set_mms_read_only", 1)
    r.in_place("set_block_test_frames", 1)
    r.in_place("set_sv_max_smp_cnt_gap", 16)
    r.in_place("set_retx_schedule", RetxSchedule(2000, 1000000, 50), 1)
    r.added("SV publisher M1", "add_sv_publisher", UNIT, b"M1", 2, 4000)
    r.added("SV publisher of 65 octets", "add_sv_publisher", UNIT, bytes(65), 65, 0)
    r.added("GOOSE publisher", "add_goose_publisher", UNIT, BLOCK, len(BLOCK))
    r.added("GOOSE publisher of any name", "add_goose_publisher", SECOND, b"", 0)
    r.added("MMS rule", "add_mms_rule", 0xFFFF, 0, 1)
    r.sv("SV frame 100", UNIT, 100, 1000000)
    r.sv("SV frame 100 again", UNIT, 100, 1000250)
    r.sv("SV frame of another address", STRANGER, 101, 1000500)
    r.raw_sv("raw SV frame 101", RAW, 1000750)
    r.raw_sv("raw SV frame, one octet damaged", RAW[:30] + bytes([RAW[30] + 1]) + RAW[31:], 1001000)
    r.sv_batch(102, 1002000)
    r.goose("GOOSE frame", UNIT, 0, 0, 2000000)
    r.goose("GOOSE frame too late", UNIT, 1, 0, 2007000)
    r.goose("GOOSE test frame", UNIT, 2, 1, 2066000)
    r.goose("GOOSE frame of another address", STRANGER, 2, 0, 2066000)
    r.mms("MMS read", 1, 12, 3000000)
    r.mms("MMS read above the rate", 1, 12, 3000100)
    r.mms("MMS write", 2, 13, 3000200)
    r.sv_by_value("by value, SV frame 104", 104, 4000000)
    r.sv_by_value("by value, SV frame 104 again", 104, 4000250)
    mms, goose, sv = (r.in_place(f"{kind}_total_inspected") for kind in ("mms", "goose", "sv"))
    print(f"strict {r.in_place('strict_mode')}, MMS {mms}, GOOSE {goose}, SV {sv}, alerts {r.in_place('total_alerts')}")


main()
