/* The IEC 61850 monitor for a recorder in C: the exports of libhost.a (crates/host), which `rt staticlib host` builds.
   docs/HOST.md says how to embed it. x86-64 Linux, little-endian; the layouts are those of the C compiler.

   A call in place takes a pointer to a monitor, and changes the monitor where it stands: for a recorder this is the way. Most calls are
   there by value too: a monitor goes in and comes back, 9184 octets each way. No call keeps a pointer, allocates, or has state of its
   own. Octets are passed as a pointer and a length, and (NULL, 0) is no octets. A flag is a number of 8 bits: handed in, any but 0 is
   true; handed out, true is 1. */
#ifndef MOKYNDU_H
#define MOKYNDU_H

#include <stddef.h>
#include <stdint.h>

#ifdef __cplusplus
extern "C" {
#define MOKYNDU_ASSERT static_assert
#else
#define MOKYNDU_ASSERT _Static_assert
#endif

/* In the place of an error's number: the rule was added, the frame was read. */
#define MOKYNDU_NO_ERROR 255

/* Errors. An add call answers RESOURCE_EXHAUSTED where the list has sixteen rules, and INVALID_INPUT for a name of more than 64
   octets; a raw frame that cannot be read is INVALID_INPUT. */
enum {
    MOKYNDU_ERROR_CRYPTO_ERROR = 0,
    MOKYNDU_ERROR_BUS_ERROR = 1,
    MOKYNDU_ERROR_POLICY_VIOLATION = 2,
    MOKYNDU_ERROR_INTEGRITY_FAILURE = 3,
    MOKYNDU_ERROR_AUTHENTICATION_FAILURE = 4,
    MOKYNDU_ERROR_TIMEOUT = 5,
    MOKYNDU_ERROR_RESOURCE_EXHAUSTED = 6,
    MOKYNDU_ERROR_NOT_INITIALIZED = 7,
    MOKYNDU_ERROR_STORAGE_ERROR = 8,
    MOKYNDU_ERROR_INVALID_INPUT = 9,
    MOKYNDU_ERROR_INVALID_CONFIG = 10,
    MOKYNDU_ERROR_NOT_FOUND = 11,
    MOKYNDU_ERROR_OVERLAPPING_REGION = 12,
    MOKYNDU_ERROR_KEY_EXPIRED = 13,
    MOKYNDU_ERROR_KEY_REVOKED = 14
};

/* The severity of an alert. HIGH and CRITICAL refuse the frame, and some alerts of MEDIUM do. */
enum {
    MOKYNDU_SEVERITY_INFO = 0,
    MOKYNDU_SEVERITY_LOW = 1,
    MOKYNDU_SEVERITY_MEDIUM = 2,
    MOKYNDU_SEVERITY_HIGH = 3,
    MOKYNDU_SEVERITY_CRITICAL = 4
};

/* What an alert is about. */
enum {
    MOKYNDU_CODE_UNSPECIFIED = 0,
    MOKYNDU_CODE_CRC_FAILURE = 1,
    MOKYNDU_CODE_WRITE_PROTECTION = 2,
    MOKYNDU_CODE_REPLAY_DETECTED = 3,
    MOKYNDU_CODE_RATE_EXCEEDED = 4,
    MOKYNDU_CODE_FLOOD_ABUSE = 5,
    MOKYNDU_CODE_POLICY_VIOLATION = 6,
    MOKYNDU_CODE_UNKNOWN_FUNCTION_CODE = 7,
    MOKYNDU_CODE_DIAGNOSTIC_BLOCKED = 8,
    MOKYNDU_CODE_ENDPOINT_BLOCKED = 9,
    MOKYNDU_CODE_SECURITY_MODE_VIOLATION = 10,
    MOKYNDU_CODE_SESSION_ANOMALY = 11,
    MOKYNDU_CODE_ALARM_FLOOD = 12,
    MOKYNDU_CODE_SEQUENCE_ANOMALY = 13,
    MOKYNDU_CODE_PAYLOAD_OVERFLOW = 14,
    MOKYNDU_CODE_INVALID_PROTOCOL = 15,
    MOKYNDU_CODE_NO_MATCHING_RULE = 16,
    MOKYNDU_CODE_MESSAGE_TYPE_BLOCKED = 17,
    MOKYNDU_CODE_PROVIDER_STATE_CHANGE = 18,
    MOKYNDU_CODE_DCP_BLOCKED = 19,
    MOKYNDU_CODE_MESSAGE_SIZE_EXCEEDED = 20,
    MOKYNDU_CODE_ADDRESS_VIOLATION = 21,
    MOKYNDU_CODE_UNKNOWN_SESSION = 22,
    MOKYNDU_CODE_RESOURCE_EXHAUSTED = 23,
    MOKYNDU_CODE_OBJECT_ACCESS_DENIED = 24,
    MOKYNDU_CODE_CIP_SERVICE_BLOCKED = 25,
    MOKYNDU_CODE_SV_REPLAY = 26,
    MOKYNDU_CODE_SV_RATE_ANOMALY = 27,
    MOKYNDU_CODE_IED_MISMATCH = 28,
    MOKYNDU_CODE_CB_HIJACK = 29,
    MOKYNDU_CODE_RETRANSMISSION_ANOMALY = 30,
    MOKYNDU_CODE_TIME_SYNC_SPOOFING = 31,
    MOKYNDU_CODE_CLOCK_REGRESSION = 32,
    MOKYNDU_CODE_UNIT_NOT_ALLOWED = 33,
    MOKYNDU_CODE_INVALID_UNIT_ID = 34,
    MOKYNDU_CODE_TX_ID_REPLAY = 35,
    MOKYNDU_CODE_BAD_LINK_CRC = 36,
    MOKYNDU_CODE_TRANSPORT_SEQ_ANOMALY = 37,
    MOKYNDU_CODE_SA_DOWNGRADE = 38,
    MOKYNDU_CODE_IIN_FLAG_SPOOFING = 39,
    MOKYNDU_CODE_FOREIGN_DEVICE = 40,
    MOKYNDU_CODE_NPDU_LOOP = 41,
    MOKYNDU_CODE_BROADCAST_FLOOD = 42
};

/* What a result is about. */
enum {
    MOKYNDU_SOURCE_MMS = 40,
    MOKYNDU_SOURCE_GOOSE = 41,
    MOKYNDU_SOURCE_SV = 42
};

/* The services of an MMS frame; 0 and 13 to 254 are taken as UNKNOWN too. */
enum {
    MOKYNDU_SERVICE_READ = 1,
    MOKYNDU_SERVICE_WRITE = 2,
    MOKYNDU_SERVICE_GET_NAME_LIST = 3,
    MOKYNDU_SERVICE_GET_VARIABLE_ACCESS_ATTRIBUTES = 4,
    MOKYNDU_SERVICE_DEFINE_NAMED_VARIABLE = 5,
    MOKYNDU_SERVICE_DELETE_NAMED_VARIABLE = 6,
    MOKYNDU_SERVICE_GET_DATA_VALUES = 7,
    MOKYNDU_SERVICE_SET_DATA_VALUES = 8,
    MOKYNDU_SERVICE_INITIATE = 9,
    MOKYNDU_SERVICE_CONCLUDE = 10,
    MOKYNDU_SERVICE_SELECT_CONTROL = 11,
    MOKYNDU_SERVICE_CANCEL_CONTROL = 12,
    MOKYNDU_SERVICE_UNKNOWN = 255
};

/* ---- the monitor */

/* The whole state of a monitor, in words of the engine's own. A caller makes one by mokyndu_new_in_place or mokyndu_new_strict_in_place,
   whatever octets stood there, and only calls change it; the readers say its totals. A copy of it is another monitor. */
typedef struct {
    uint64_t words[1148];
} mokyndu_monitor; /* 9184 */

/* How GOOSE frames are repeated: microseconds, and the tolerance in percent. */
typedef struct {
    uint32_t initial_us;
    uint32_t t_max_us;
    uint8_t tolerance_pct;
} mokyndu_retx_schedule; /* 12 */

/* ---- frames. A name is 64 octets and a stated length; above 64 the length counts as 64. Times are microseconds of the recorder's
   clock. The pair t is the frame's own time, (0, 0) where the frame has none: seconds, and the fraction as the three octets of the field
   as a number, in units of 2^-24 s, which is how a raw SV frame is read. */

/* A decoded MMS request. The service is taken by its number; the masks go by the raw number. In SELECT_CONTROL,
   CANCEL_CONTROL and CONCLUDE the domain and control_block_is_goose name the control block; CANCEL_CONTROL and CONCLUDE with an empty
   domain release all of the client's. */
typedef struct {
    uint8_t service_type;
    uint8_t raw_service_type;
    uint8_t domain[64];
    uint8_t domain_len;
    uint32_t invoke_id;
    uint64_t timestamp_us;
    uint32_t client_id;
    uint8_t control_block_is_goose;
} mokyndu_mms_frame; /* 88 */

/* A decoded GOOSE message. */
typedef struct {
    uint8_t src_mac[6];
    uint8_t go_cb_ref[64];
    uint8_t go_cb_ref_len;
    uint32_t st_num;
    uint32_t sq_num;
    uint8_t test;
    uint64_t timestamp_us;
    uint32_t t_seconds_since_epoch;
    uint32_t t_fraction_of_second;
} mokyndu_goose_frame; /* 104 */

/* A decoded sampled-values frame. The rate is 0 where the frame has none. smp_cnt has to count through to 65535: a stream whose count
   begins at 0 again each second is refused as a replay from its second second on (docs/DIFFERENCES.md). */
typedef struct {
    uint8_t src_mac[6];
    uint8_t svid_len;
    uint8_t svid[64];
    uint16_t smp_cnt;
    uint16_t smp_rate;
    uint8_t dataset_ref_len;
    uint8_t dataset_ref[64];
    uint64_t timestamp_us;
    uint32_t t_seconds_since_epoch;
    uint32_t t_fraction_of_second;
} mokyndu_sv_frame; /* 160 */

/* ---- answers */

/* An alert in a verdict. */
typedef struct {
    uint8_t code;
    uint8_t severity;
} mokyndu_verdict_alert; /* 2 */

/* The verdict on a frame, of a call in place: a result in eight octets. Places 0 to alert_count - 1 hold alerts, the others zeros; go by
   alert_count, since code 0 and severity 0 are values too. An alert's time is its frame's, its source number the frame's invoke id, stNum
   or smpCnt, and its number is by one more than the alerts before it, which mokyndu_total_alerts_in_place says. */
typedef struct {
    uint8_t allowed;
    uint8_t alert_count;
    mokyndu_verdict_alert alerts[3];
} mokyndu_verdict; /* 8 */

/* The verdict on a raw frame, and the error's number. A frame that cannot be read leaves the monitor as it was, and is not allowed. */
typedef struct {
    mokyndu_verdict verdict;
    uint8_t error;
} mokyndu_raw_verdict; /* 9 */

/* An alert in a result. Its source number is the frame's invoke id, stNum or smpCnt. */
typedef struct {
    uint64_t id;
    uint64_t timestamp_us;
    uint8_t payload_hash[32];
    uint32_t source_id;
    uint8_t severity;
    uint8_t source_type;
    uint8_t code;
} mokyndu_alert; /* 56 */

/* The result of a call by value. Slots 0 to alert_count - 1 hold alerts, the others an empty one. No inspection has more than three
   alerts, so alerts_truncated is always 0. */
typedef struct {
    uint8_t allowed;
    uint8_t alert_count;
    uint8_t source_type;
    uint8_t alerts_truncated;
    mokyndu_alert alerts[4];
} mokyndu_result; /* 232 */

/* The monitor after an add call, and the error's number. */
typedef struct {
    mokyndu_monitor monitor;
    uint8_t error;
} mokyndu_configured; /* 9192 */

/* The monitor after a frame, and the result. A refused frame changes the monitor too: keep the monitor that was returned, always. */
typedef struct {
    mokyndu_monitor monitor;
    mokyndu_result result;
} mokyndu_inspected; /* 9416 */

/* The monitor after a raw frame, the result, and the error's number, as in mokyndu_raw_verdict. */
typedef struct {
    mokyndu_monitor monitor;
    mokyndu_result result;
    uint8_t error;
} mokyndu_raw_inspected; /* 9424 */

/* The SV frame in some octets, and the error's number; a frame of zeros beside an error. */
typedef struct {
    mokyndu_sv_frame frame;
    uint8_t error;
} mokyndu_parsed; /* 168 */

/* The layouts that the exports read and write. */
MOKYNDU_ASSERT(sizeof(mokyndu_monitor) == 9184, "the monitor");
MOKYNDU_ASSERT(sizeof(mokyndu_retx_schedule) == 12, "the schedule");
MOKYNDU_ASSERT(sizeof(mokyndu_mms_frame) == 88 && offsetof(mokyndu_mms_frame, timestamp_us) == 72, "the MMS frame");
MOKYNDU_ASSERT(sizeof(mokyndu_goose_frame) == 104 && offsetof(mokyndu_goose_frame, timestamp_us) == 88, "the GOOSE frame");
MOKYNDU_ASSERT(sizeof(mokyndu_sv_frame) == 160 && offsetof(mokyndu_sv_frame, timestamp_us) == 144, "the SV frame");
MOKYNDU_ASSERT(sizeof(mokyndu_verdict) == 8 && sizeof(mokyndu_raw_verdict) == 9, "verdicts");
MOKYNDU_ASSERT(sizeof(mokyndu_alert) == 56 && sizeof(mokyndu_result) == 232, "the result");
MOKYNDU_ASSERT(sizeof(mokyndu_configured) == 9192 && sizeof(mokyndu_inspected) == 9416, "answers by value");
MOKYNDU_ASSERT(sizeof(mokyndu_raw_inspected) == 9424 && sizeof(mokyndu_parsed) == 168, "answers on raw frames");

/* ---- calls in place. The monitor and the frame are read and written where they stand: nothing else may write them during the call, nor
   read the monitor. */

/* A new monitor without rules. A strict one refuses, where MMS rules exist, a request that none applies to, and, where SV publishers
   exist, an svID that is not among them. */
void mokyndu_new_in_place(mokyndu_monitor *monitor);
void mokyndu_new_strict_in_place(mokyndu_monitor *monitor);

/* As new but for the settings, which are strict mode and what the set calls stored. Rules, tables, reservations and totals are gone, and
   alert numbers begin at 1 again. */
void mokyndu_reset_in_place(mokyndu_monitor *monitor);

/* Bit n of the mask allows the MMS service of raw number n; 0 filters none. Any other mask, 0xFFFF too, refuses raw numbers of 16 and
   above. */
void mokyndu_set_mms_service_mask_in_place(mokyndu_monitor *monitor, uint16_t mask);

/* Whether all MMS writes are refused. */
void mokyndu_set_mms_read_only_in_place(mokyndu_monitor *monitor, uint8_t read_only);

/* Whether GOOSE test frames are refused. */
void mokyndu_set_block_test_frames_in_place(mokyndu_monitor *monitor, uint8_t block);

/* The largest gap of smpCnt that is accepted; 0 accepts any. */
void mokyndu_set_sv_max_smp_cnt_gap_in_place(mokyndu_monitor *monitor, uint16_t gap);

/* The schedule of GOOSE retransmissions, and whether it is checked: an interval outside tolerance gets an alert of MEDIUM and does not
   refuse the frame. A new monitor has 4000 us, 1000000 us and 25 percent, and does not check. */
void mokyndu_set_retx_schedule_in_place(mokyndu_monitor *monitor, mokyndu_retx_schedule schedule, uint8_t enforce);

/* How many seconds the clock of an address may go ahead between two of its frames, GOOSE or SV; 0 for any. More, or going back, refuses
   the frame. */
void mokyndu_set_time_max_forward_jump_s_in_place(mokyndu_monitor *monitor, uint32_t seconds);

/* The add calls answer an error's number; sixteen rules of each kind. One that answers an error leaves the monitor as it was.

   An MMS rule: a mask of raw numbers (bit n for n; 0xFFFF for all, also 16 and above), whether it refuses writes, and how many requests
   of one invoke_id a second it lets through, 0 for any. The first rule that applies decides. */
uint8_t mokyndu_add_mms_rule_in_place(mokyndu_monitor *monitor, uint16_t service_mask, uint8_t read_only, uint16_t max_rate_per_sec);

/* A GOOSE publisher: an address of six octets and a control block's name; an empty name fits any of the address. Once there is a
   publisher, a GOOSE frame that fits none is refused, strict or not. */
uint8_t mokyndu_add_goose_publisher_in_place(mokyndu_monitor *monitor, const uint8_t src_mac[6], const uint8_t *go_cb_ref, size_t go_cb_ref_len);

/* An SV publisher: an address of six octets, the svID that is bound to it, and its sample rate, 0 for any. A frame of this svID from an
   address that no publisher gives it is refused. */
uint8_t mokyndu_add_sv_publisher_in_place(mokyndu_monitor *monitor, const uint8_t src_mac[6], const uint8_t *svid, size_t svid_len,
                                          uint16_t expected_smp_rate);

/* The inspections. A refused frame changes the monitor too. */
mokyndu_verdict mokyndu_mms_in_place(mokyndu_monitor *monitor, const mokyndu_mms_frame *frame);
mokyndu_verdict mokyndu_goose_in_place(mokyndu_monitor *monitor, const mokyndu_goose_frame *frame);
mokyndu_verdict mokyndu_sv_in_place(mokyndu_monitor *monitor, const mokyndu_sv_frame *frame);

/* An SV frame as it was on the wire, from the destination address on, and the time at which it was seen. */
mokyndu_raw_verdict mokyndu_raw_sv_in_place(mokyndu_monitor *monitor, const uint8_t *octets, size_t len, uint64_t timestamp_us);

/* Many SV frames: an array of mokyndu_sv_frame, with room for an array of mokyndu_verdict, in their order; the lengths are those in
   octets. Answers how many frames were inspected: the lesser of frames_len / 160 and verdicts_len / 8. Octets of verdicts behind the last
   verdict stay as they were. verdicts must not overlap frames; neither needs an alignment. */
uint64_t mokyndu_sv_batch_in_place(mokyndu_monitor *monitor, const void *frames, size_t frames_len, void *verdicts, size_t verdicts_len);

/* How many frames of a kind were inspected, and how many alerts there were. */
uint64_t mokyndu_mms_total_inspected_in_place(const mokyndu_monitor *monitor);
uint64_t mokyndu_goose_total_inspected_in_place(const mokyndu_monitor *monitor);
uint64_t mokyndu_sv_total_inspected_in_place(const mokyndu_monitor *monitor);
uint64_t mokyndu_total_alerts_in_place(const mokyndu_monitor *monitor);

/* 1 for a strict monitor. */
uint8_t mokyndu_strict_mode_in_place(const mokyndu_monitor *monitor);

/* ---- the same calls by value: the monitor in and out, and of an inspection the whole result, with numbers and times of the alerts */

mokyndu_monitor mokyndu_new(void);
mokyndu_monitor mokyndu_new_strict(void);
mokyndu_monitor mokyndu_reset(mokyndu_monitor monitor);
mokyndu_monitor mokyndu_set_mms_service_mask(mokyndu_monitor monitor, uint16_t mask);
mokyndu_monitor mokyndu_set_mms_read_only(mokyndu_monitor monitor, uint8_t read_only);
mokyndu_monitor mokyndu_set_block_test_frames(mokyndu_monitor monitor, uint8_t block);
mokyndu_monitor mokyndu_set_sv_max_smp_cnt_gap(mokyndu_monitor monitor, uint16_t gap);
mokyndu_monitor mokyndu_set_retx_schedule(mokyndu_monitor monitor, mokyndu_retx_schedule schedule, uint8_t enforce);
mokyndu_monitor mokyndu_set_time_max_forward_jump_s(mokyndu_monitor monitor, uint32_t seconds);
mokyndu_configured mokyndu_add_mms_rule(mokyndu_monitor monitor, uint16_t service_mask, uint8_t read_only, uint16_t max_rate_per_sec);
mokyndu_configured mokyndu_add_goose_publisher(mokyndu_monitor monitor, const uint8_t src_mac[6], const uint8_t *go_cb_ref, size_t go_cb_ref_len);
mokyndu_configured mokyndu_add_sv_publisher(mokyndu_monitor monitor, const uint8_t src_mac[6], const uint8_t *svid, size_t svid_len,
                                            uint16_t expected_smp_rate);
mokyndu_inspected mokyndu_inspect_mms(mokyndu_monitor monitor, mokyndu_mms_frame frame);
mokyndu_inspected mokyndu_inspect_goose(mokyndu_monitor monitor, mokyndu_goose_frame frame);
mokyndu_inspected mokyndu_inspect_sv(mokyndu_monitor monitor, mokyndu_sv_frame frame);
mokyndu_raw_inspected mokyndu_inspect_raw_sv(mokyndu_monitor monitor, const uint8_t *octets, size_t len, uint64_t timestamp_us);
uint64_t mokyndu_mms_total_inspected(mokyndu_monitor monitor);
uint64_t mokyndu_goose_total_inspected(mokyndu_monitor monitor);
uint64_t mokyndu_sv_total_inspected(mokyndu_monitor monitor);
uint64_t mokyndu_total_alerts(mokyndu_monitor monitor);
uint8_t mokyndu_strict_mode(mokyndu_monitor monitor);

/* The frame in the octets of an SV frame as it was on the wire, without a monitor. */
mokyndu_parsed mokyndu_parse_sv(const uint8_t *octets, size_t len, uint64_t timestamp_us);

/* ---- (NULL, 0). An export takes no null pointer, also not of no octets. So in C each of the names below stands for an inline function,
   which hands the export a static octet in the place of NULL. */

static inline const void *mokyndu_octets(const void *octets)
{
    static const uint8_t none = 0;
    return octets ? octets : &none;
}

static inline uint8_t mokyndu_add_goose_publisher_in_place_c(
    mokyndu_monitor *monitor, const uint8_t src_mac[6], const uint8_t *go_cb_ref, size_t go_cb_ref_len)
{
    return mokyndu_add_goose_publisher_in_place(monitor, src_mac, (const uint8_t *)mokyndu_octets(go_cb_ref), go_cb_ref_len);
}
#define mokyndu_add_goose_publisher_in_place mokyndu_add_goose_publisher_in_place_c

static inline uint8_t mokyndu_add_sv_publisher_in_place_c(
    mokyndu_monitor *monitor, const uint8_t src_mac[6], const uint8_t *svid, size_t svid_len, uint16_t expected_smp_rate)
{
    return mokyndu_add_sv_publisher_in_place(monitor, src_mac, (const uint8_t *)mokyndu_octets(svid), svid_len, expected_smp_rate);
}
#define mokyndu_add_sv_publisher_in_place mokyndu_add_sv_publisher_in_place_c

static inline mokyndu_raw_verdict mokyndu_raw_sv_in_place_c(
    mokyndu_monitor *monitor, const uint8_t *octets, size_t len, uint64_t timestamp_us)
{
    return mokyndu_raw_sv_in_place(monitor, (const uint8_t *)mokyndu_octets(octets), len, timestamp_us);
}
#define mokyndu_raw_sv_in_place mokyndu_raw_sv_in_place_c

static inline uint64_t mokyndu_sv_batch_in_place_c(
    mokyndu_monitor *monitor, const void *frames, size_t frames_len, void *verdicts, size_t verdicts_len)
{
    return mokyndu_sv_batch_in_place(monitor, mokyndu_octets(frames), frames_len, (void *)mokyndu_octets(verdicts), verdicts_len);
}
#define mokyndu_sv_batch_in_place mokyndu_sv_batch_in_place_c

static inline mokyndu_configured mokyndu_add_goose_publisher_c(
    mokyndu_monitor monitor, const uint8_t src_mac[6], const uint8_t *go_cb_ref, size_t go_cb_ref_len)
{
    return mokyndu_add_goose_publisher(monitor, src_mac, (const uint8_t *)mokyndu_octets(go_cb_ref), go_cb_ref_len);
}
#define mokyndu_add_goose_publisher mokyndu_add_goose_publisher_c

static inline mokyndu_configured mokyndu_add_sv_publisher_c(
    mokyndu_monitor monitor, const uint8_t src_mac[6], const uint8_t *svid, size_t svid_len, uint16_t expected_smp_rate)
{
    return mokyndu_add_sv_publisher(monitor, src_mac, (const uint8_t *)mokyndu_octets(svid), svid_len, expected_smp_rate);
}
#define mokyndu_add_sv_publisher mokyndu_add_sv_publisher_c

static inline mokyndu_raw_inspected mokyndu_inspect_raw_sv_c(
    mokyndu_monitor monitor, const uint8_t *octets, size_t len, uint64_t timestamp_us)
{
    return mokyndu_inspect_raw_sv(monitor, (const uint8_t *)mokyndu_octets(octets), len, timestamp_us);
}
#define mokyndu_inspect_raw_sv mokyndu_inspect_raw_sv_c

static inline mokyndu_parsed mokyndu_parse_sv_c(const uint8_t *octets, size_t len, uint64_t timestamp_us)
{
    return mokyndu_parse_sv((const uint8_t *)mokyndu_octets(octets), len, timestamp_us);
}
#define mokyndu_parse_sv mokyndu_parse_sv_c

#ifdef __cplusplus
}
#endif

#endif
