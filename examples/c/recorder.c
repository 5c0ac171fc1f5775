/* A small recorder: sets a monitor up, hands it frames and prints the verdicts, in place; then two frames by value.
   examples/rust/recorder.rs and examples/python/recorder.py print the same lines. examples/run builds and runs all three. */
#include <inttypes.h>
#include <stdio.h>
#include <string.h>
#include "mokyndu.h"

static const char *const severities[] = {"info", "low", "medium", "high", "critical"};
static const uint8_t unit[6] = {2, 0, 0, 0, 0, 1}, second[6] = {2, 0, 0, 0, 0, 2}, stranger[6] = {2, 0, 0, 0, 0, 9};
static const char block[] = "IED1LD0/LLN0$GO$gcb1";
static mokyndu_monitor monitor;

static void added(const char *what, uint8_t error) {
    if (error == MOKYNDU_NO_ERROR)
        printf("%s: added\n", what);
    else
        printf("%s: error %d\n", what, error);
}

static void verdict(const char *what, mokyndu_verdict v) {
    printf("%s: %s", what, v.allowed ? "allowed" : "refused");
    for (int k = 0; k < v.alert_count; k++)
        printf(", code %d, %s", v.alerts[k].code, severities[v.alerts[k].severity]);
    printf("\n");
}

static mokyndu_sv_frame sv_frame(const uint8_t mac[6], uint16_t count, uint64_t time) {
    mokyndu_sv_frame f = {.svid_len = 2, .svid = "M1", .smp_cnt = count, .smp_rate = 4000, .timestamp_us = time};
    memcpy(f.src_mac, mac, 6);
    return f;
}

static void sv(const char *what, const uint8_t mac[6], uint16_t count, uint64_t time) {
    mokyndu_sv_frame f = sv_frame(mac, count, time);
    verdict(what, mokyndu_sv_in_place(&monitor, &f));
}

static void goose(const char *what, const uint8_t mac[6], uint32_t sq, uint8_t test, uint64_t time) {
    mokyndu_goose_frame f = {.go_cb_ref_len = sizeof block - 1, .st_num = 7, .sq_num = sq, .test = test, .timestamp_us = time};
    memcpy(f.src_mac, mac, 6);
    memcpy(f.go_cb_ref, block, sizeof block - 1);
    verdict(what, mokyndu_goose_in_place(&monitor, &f));
}

static void mms(const char *what, uint8_t service, uint32_t invoke_id, uint64_t time) {
    mokyndu_mms_frame f = {.service_type = service, .raw_service_type = service, .invoke_id = invoke_id, .timestamp_us = time, .client_id = 3};
    verdict(what, mokyndu_mms_in_place(&monitor, &f));
}

static void raw_sv(const char *what, const uint8_t *octets, size_t len, uint64_t time) {
    mokyndu_raw_verdict r = mokyndu_raw_sv_in_place(&monitor, octets, len, time);
    if (r.error == MOKYNDU_NO_ERROR)
        verdict(what, r.verdict);
    else
        printf("%s: error %d, %s\n", what, r.error, r.verdict.allowed ? "allowed" : "refused");
}

/* Two frames of the next counts, a replay, and a frame for whose verdict there is no room. */
static void sv_batch(uint16_t count, uint64_t time) {
    mokyndu_sv_frame frames[4];
    mokyndu_verdict verdicts[3];
    for (int k = 0; k < 4; k++)
        frames[k] = sv_frame(unit, count + k % 2, time + k);
    uint64_t inspected = mokyndu_sv_batch_in_place(&monitor, frames, sizeof frames, verdicts, sizeof verdicts);
    printf("batch of 4 SV frames, room for 3 verdicts: %" PRIu64 " inspected\n", inspected);
    for (uint64_t k = 0; k < inspected; k++) {
        char what[32];
        snprintf(what, sizeof what, "batch, SV frame %d", frames[k].smp_cnt);
        verdict(what, verdicts[k]);
    }
}

/* The same by value: the monitor goes in and comes back, and the result has the alerts' numbers and times. */
static void sv_by_value(const char *what, uint16_t count, uint64_t time) {
    mokyndu_inspected i = mokyndu_inspect_sv(monitor, sv_frame(unit, count, time));
    monitor = i.monitor;
    printf("%s: %s", what, i.result.allowed ? "allowed" : "refused");
    for (int k = 0; k < i.result.alert_count; k++) {
        const mokyndu_alert *a = &i.result.alerts[k];
        printf(", alert %" PRIu64 " of code %d, %s, at %" PRIu64 " us, source %d number %" PRIu32, a->id, a->code, severities[a->severity],
               a->timestamp_us, a->source_type, a->source_id);
    }
    printf("\n");
}

int main(void) {
    uint8_t octets[39] = {1, 12, 205, 4, 0, 1, 2, 0, 0, 0, 0, 1, 0x88, 0xBA, 0x40, 0, 0, 25, 0, 0, 0, 0,
                          0x60, 15, 0x80, 1, 1, 0xA2, 10, 0x30, 8, 0x80, 2, 'M', '1', 0x82, 2, 0, 101};
    uint8_t long_name[65] = {0};
    mokyndu_new_strict_in_place(&monitor);
    mokyndu_set_mms_read_only_in_place(&monitor, 1);
    mokyndu_set_block_test_frames_in_place(&monitor, 1);
    mokyndu_set_sv_max_smp_cnt_gap_in_place(&monitor, 16);
    mokyndu_set_retx_schedule_in_place(&monitor, (mokyndu_retx_schedule){2000, 1000000, 50}, 1);
    added("SV publisher M1", mokyndu_add_sv_publisher_in_place(&monitor, unit, (const uint8_t *)"M1", 2, 4000));
    added("SV publisher of 65 octets", mokyndu_add_sv_publisher_in_place(&monitor, unit, long_name, 65, 0));
    added("GOOSE publisher", mokyndu_add_goose_publisher_in_place(&monitor, unit, (const uint8_t *)block, sizeof block - 1));
    added("GOOSE publisher of any name", mokyndu_add_goose_publisher_in_place(&monitor, second, NULL, 0));
    added("MMS rule", mokyndu_add_mms_rule_in_place(&monitor, 0xFFFF, 0, 1));
    sv("SV frame 100", unit, 100, 1000000);
    sv("SV frame 100 again", unit, 100, 1000250);
    sv("SV frame of another address", stranger, 101, 1000500);
    raw_sv("raw SV frame 101", octets, sizeof octets, 1000750);
    octets[30]++;
    raw_sv("raw SV frame, one octet damaged", octets, sizeof octets, 1001000);
    sv_batch(102, 1002000);
    goose("GOOSE frame", unit, 0, 0, 2000000);
    goose("GOOSE frame too late", unit, 1, 0, 2007000);
    goose("GOOSE test frame", unit, 2, 1, 2066000);
    goose("GOOSE frame of another address", stranger, 2, 0, 2066000);
    mms("MMS read", MOKYNDU_SERVICE_READ, 12, 3000000);
    mms("MMS read above the rate", MOKYNDU_SERVICE_READ, 12, 3000100);
    mms("MMS write", MOKYNDU_SERVICE_WRITE, 13, 3000200);
    sv_by_value("by value, SV frame 104", 104, 4000000);
    sv_by_value("by value, SV frame 104 again", 104, 4000250);
    printf("strict %d, MMS %" PRIu64 ", GOOSE %" PRIu64 ", SV %" PRIu64 ", alerts %" PRIu64 "\n", mokyndu_strict_mode_in_place(&monitor),
           mokyndu_mms_total_inspected_in_place(&monitor), mokyndu_goose_total_inspected_in_place(&monitor),
           mokyndu_sv_total_inspected_in_place(&monitor), mokyndu_total_alerts_in_place(&monitor));
    return 0;
}
