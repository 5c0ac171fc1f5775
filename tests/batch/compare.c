/* Compares the calls in place and the batch with the calls by value: compare SEED BATCHES. Two monitors are set up from the seed, one by
   value and one in place. Batches of SV frames with few keys go to one monitor in one call, to another one by one by value, and to a
   third one by one in place; then MMS, GOOSE and raw SV frames go to the last two. The verdicts must be equal, and after each turn the
   whole monitors and their totals. Some batches end within a frame, and some have no room for all verdicts. Started by `run`. */
#include <inttypes.h>
#include <stdio.h>
#include <stdlib.h>
#include <string.h>
#include "mokyndu.h"

enum { MOST = 40 };

static uint64_t state, inspected, refused, alerts, raw_read, raw_unreadable;

/* A number below n (the generator of Knuth's MMIX). */
static uint32_t below(uint32_t n) {
    state = state * 6364136223846793005u + 1442695040888963407u;
    return (uint32_t)(state >> 33) % n;
}

static mokyndu_sv_frame frame(void) {
    static const uint8_t lengths[] = {0, 2, 4, 30, 64, 65, 255};
    mokyndu_sv_frame f;
    memset(&f, 0, sizeof f);
    f.src_mac[5] = below(18);
    f.svid_len = lengths[below(7)];
    f.svid[0] = 'A' + below(3);
    f.svid[1] = below(7);
    f.smp_cnt = below(4) ? below(40) : below(65536);
    f.smp_rate = below(3) * 4000;
    f.dataset_ref_len = below(3);
    f.dataset_ref[0] = below(3);
    f.timestamp_us = below(1000000);
    f.t_seconds_since_epoch = below(3) ? 0 : below(50);
    f.t_fraction_of_second = below(2);
    return f;
}

static mokyndu_goose_frame goose_frame(void) {
    mokyndu_goose_frame f;
    memset(&f, 0, sizeof f);
    f.src_mac[5] = below(18);
    f.go_cb_ref_len = below(4) ? below(3) : 65 + below(190);
    f.go_cb_ref[0] = below(3);
    f.st_num = below(3);
    f.sq_num = below(6);
    f.test = below(4) == 0;
    f.timestamp_us = below(100000);
    f.t_seconds_since_epoch = below(3) ? 0 : below(50);
    return f;
}

static mokyndu_mms_frame mms_frame(void) {
    mokyndu_mms_frame f;
    memset(&f, 0, sizeof f);
    f.service_type = below(14);
    f.raw_service_type = below(18);
    f.domain_len = below(3);
    f.domain[0] = below(3);
    f.invoke_id = below(20);
    f.timestamp_us = below(2000000);
    f.client_id = below(3);
    f.control_block_is_goose = below(2);
    return f;
}

/* A raw SV frame; now and then one octet of it is another one. */
static void raw_frame(uint8_t octets[39]) {
    static const uint8_t good[39] = {1, 12, 205, 4, 0, 1, 0, 0, 0, 0, 0, 0, 0x88, 0xBA, 0x40, 0, 0, 25, 0, 0, 0, 0,
                                     0x60, 15, 0x80, 1, 1, 0xA2, 10, 0x30, 8, 0x80, 2, 'A', 0, 0x82, 2, 0, 0};
    memcpy(octets, good, sizeof good);
    octets[11] = below(18);
    octets[33] = 'A' + below(3);
    octets[34] = below(7);
    octets[38] = below(40);
    if (below(3) == 0)
        octets[below(39)] = below(256);
}

static int same_monitor(const mokyndu_monitor *a, const mokyndu_monitor *b) {
    return memcmp(a, b, sizeof *a) == 0;
}

static int same_totals(const mokyndu_monitor *a, const mokyndu_monitor *b) {
    return mokyndu_mms_total_inspected(*a) == mokyndu_mms_total_inspected_in_place(b) &&
        mokyndu_goose_total_inspected(*a) == mokyndu_goose_total_inspected_in_place(b) &&
        mokyndu_sv_total_inspected(*a) == mokyndu_sv_total_inspected_in_place(b) &&
        mokyndu_total_alerts(*a) == mokyndu_total_alerts_in_place(b) &&
        mokyndu_strict_mode(*a) == mokyndu_strict_mode_in_place(b);
}

/* Whether a verdict is that of a result. */
static int same_verdict(const mokyndu_result *r, mokyndu_verdict v) {
    int same = v.allowed == r->allowed && v.alert_count == r->alert_count;
    for (int k = 0; k < 3; k++)
        same &= v.alerts[k].code == r->alerts[k].code && v.alerts[k].severity == r->alerts[k].severity;
    return same;
}

/* Settings, made from the seed, by value and in place. */
static void set(mokyndu_monitor *one, mokyndu_monitor *placed) {
    mokyndu_retx_schedule schedule = {4000, 1000000, 25};
    uint8_t strict = below(2), block = below(2), read_only = below(4) == 0, enforce = below(2);
    uint16_t gap = below(20), mask = below(4) ? 0 : below(65536);
    uint32_t jump = below(20);
    *one = strict ? mokyndu_new_strict() : mokyndu_new();
    *one = mokyndu_set_sv_max_smp_cnt_gap(*one, gap);
    *one = mokyndu_set_time_max_forward_jump_s(*one, jump);
    *one = mokyndu_set_block_test_frames(*one, block);
    *one = mokyndu_set_mms_read_only(*one, read_only);
    *one = mokyndu_set_mms_service_mask(*one, mask);
    *one = mokyndu_set_retx_schedule(*one, schedule, enforce);
    memset(placed, below(256), sizeof *placed);
    (strict ? mokyndu_new_strict_in_place : mokyndu_new_in_place)(placed);
    mokyndu_set_sv_max_smp_cnt_gap_in_place(placed, gap);
    mokyndu_set_time_max_forward_jump_s_in_place(placed, jump);
    mokyndu_set_block_test_frames_in_place(placed, block);
    mokyndu_set_mms_read_only_in_place(placed, read_only);
    mokyndu_set_mms_service_mask_in_place(placed, mask);
    mokyndu_set_retx_schedule_in_place(placed, schedule, enforce);
}

/* Rules, made from the seed, by value and in place; now and then a name is too long, or none is given. Answers whether the errors are equal. */
static int add(mokyndu_monitor *one, mokyndu_monitor *placed) {
    int same = 1;
    for (uint32_t k = below(10) ? below(7) : 20; k > 0; k--) {
        uint8_t mac[6] = {0, 0, 0, 0, 0, below(18)}, name[65] = {'A' + below(3), below(7)}, read_only = below(2), error;
        size_t len = below(20) ? 2 : 65 - below(2);
        uint16_t mask = below(2) ? 0xFFFF : below(65536), rate = below(3);
        mokyndu_configured c;
        switch (below(3)) {
        case 0:
            c = mokyndu_add_mms_rule(*one, mask, read_only, rate);
            error = mokyndu_add_mms_rule_in_place(placed, mask, read_only, rate);
            break;
        case 1:
            len = below(2) ? len : 0;
            c = mokyndu_add_goose_publisher(*one, mac, len ? name : NULL, len);
            error = mokyndu_add_goose_publisher_in_place(placed, mac, len ? name : NULL, len);
            break;
        default:
            c = mokyndu_add_sv_publisher(*one, mac, name, len, rate * 4000);
            error = mokyndu_add_sv_publisher_in_place(placed, mac, name, len, rate * 4000);
        }
        *one = c.monitor;
        same &= c.error == error;
    }
    return same;
}

/* An MMS, a GOOSE or a raw SV frame, by value and in place. Answers whether the verdicts are equal. */
static int other_agrees(mokyndu_monitor *one, mokyndu_monitor *placed) {
    mokyndu_mms_frame request = mms_frame();
    mokyndu_goose_frame message = goose_frame();
    uint8_t octets[39];
    size_t len = below(20) ? sizeof octets : below(39);
    mokyndu_inspected i;
    raw_frame(octets);
    switch (below(3)) {
    case 0:
        i = mokyndu_inspect_goose(*one, message);
        *one = i.monitor;
        return same_verdict(&i.result, mokyndu_goose_in_place(placed, &message));
    case 1:
        i = mokyndu_inspect_mms(*one, request);
        *one = i.monitor;
        return same_verdict(&i.result, mokyndu_mms_in_place(placed, &request));
    }
    mokyndu_raw_inspected r = mokyndu_inspect_raw_sv(*one, len ? octets : NULL, len, message.timestamp_us);
    mokyndu_raw_verdict v = mokyndu_raw_sv_in_place(placed, len ? octets : NULL, len, message.timestamp_us);
    int read = r.error == MOKYNDU_NO_ERROR;
    int kept = read || (!r.result.allowed && r.result.alert_count == 0 && same_monitor(one, &r.monitor));
    *one = r.monitor;
    raw_read += read;
    raw_unreadable += !read;
    return kept && r.error == v.error && same_verdict(&r.result, v.verdict);
}

static int others_agree(mokyndu_monitor *one, mokyndu_monitor *placed) {
    for (uint32_t k = below(20); k > 0; k--) {
        if (!other_agrees(one, placed) || !same_monitor(one, placed))
            return 0;
    }
    if (below(10) == 0) {
        *one = mokyndu_reset(*one);
        mokyndu_reset_in_place(placed);
    }
    return same_monitor(one, placed) && same_totals(one, placed);
}

/* SV frames in one call, one by one by value, and one by one in place. Answers whether count, verdicts and monitors are equal. */
static int sv_agrees(mokyndu_monitor *one, mokyndu_monitor *many, mokyndu_monitor *placed) {
    mokyndu_sv_frame frames[MOST];
    mokyndu_verdict together[MOST + 1], single[MOST + 1];
    size_t frames_len = below(sizeof frames + 1), verdicts_len = below(sizeof together + 1);
    size_t count = frames_len / sizeof *frames < verdicts_len / 8 ? frames_len / sizeof *frames : verdicts_len / 8;
    int same = 1;
    for (int k = 0; k < MOST; k++)
        frames[k] = frame();
    memset(together, 0xEE, sizeof together);
    memset(single, 0xEE, sizeof single);
    same &= mokyndu_sv_batch_in_place(many, frames_len ? frames : NULL, frames_len, together, verdicts_len) == count;
    for (size_t k = 0; k < count; k++) {
        mokyndu_inspected i = mokyndu_inspect_sv(*one, frames[k]);
        *one = i.monitor;
        single[k] = mokyndu_sv_in_place(placed, &frames[k]);
        same &= same_verdict(&i.result, single[k]);
        refused += !i.result.allowed;
        alerts += i.result.alert_count;
    }
    inspected += count;
    return same && memcmp(together, single, sizeof single) == 0 && same_monitor(one, many) && same_monitor(one, placed);
}

int main(int argc, char **argv) {
    uint64_t batches = argc > 2 ? strtoull(argv[2], NULL, 10) : 20000;
    state = argc > 1 ? strtoull(argv[1], NULL, 10) : 1;
    for (uint64_t b = 0; b < batches; b++) {
        mokyndu_monitor one, many, placed;
        set(&one, &placed);
        if (!add(&one, &placed) || !same_monitor(&one, &placed)) {
            printf("DIFFERENT set up, batch %" PRIu64 "\n", b);
            return 1;
        }
        for (int turn = 0; turn < 4; turn++) {
            int same = others_agree(&one, &placed);
            many = one;
            if (!same || !sv_agrees(&one, &many, &placed)) {
                printf("DIFFERENT in batch %" PRIu64 ", turn %d\n", b, turn);
                return 1;
            }
        }
    }
    printf("%" PRIu64 " SV frames in batches, by value and in place, with MMS, GOOSE and raw SV frames between: no difference; refused %" PRIu64
           ", alerts %" PRIu64 "; raw frames read %" PRIu64 ", unreadable %" PRIu64 "\n", inspected, refused, alerts, raw_read, raw_unreadable);
    return 0;
}
