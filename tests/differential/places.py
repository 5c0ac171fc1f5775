# The places of the Rust sources that the tally counts, in the order of its table: PLACES has a group, what is counted, the function it happens
# in, the text beside which the counting statement goes, and a condition. The text stands once in its function; the statement goes behind it,
# or before it where BEFORE says so. counted.py inserts the statements, tally.py prints the counts.
import collections

Place = collections.namedtuple("Place", "group what function text condition before", defaults=("", False))
BEFORE = True

# The levels of a frame at which an element is read, in the order in which the counted copy numbers them.
LEVELS = ("60", "the list", "30", "the ASDU")
OTHER_KIND = "self.cb_reservations.iter().any(|e| e.matches_ref(cb_ref, cb_ref_len, !is_goose))"
THIS_KIND = "self.cb_reservations.iter().any(|e| e.matches_ref(cb_ref, cb_ref_len, is_goose))"
OTHER_ONLY = f"{OTHER_KIND} && !{THIS_KIND}"
OWN = "self.cb_reservations.iter().any(|e| e.active && e.owner_client_id == client_id"


# The refusals of document 01, by their numbers, and the alerts that do not refuse.
def refusals():
    group = "refusal"
    for kind, most in (("mms_rule", "MMS_RULES"), ("goose_publisher", "GOOSE_PUBLISHERS"), ("sv_publisher", "SV_PUBLISHERS")):
        yield Place(group, f" 1 add_{kind} on 16", f"fn add_{kind}(", f"if self.{kind}_count as usize >= MAX_{most} {{")
    yield Place(
        group, " 2 add_goose_publisher, name over 64 octets", "fn add_goose_publisher(", "if go_cb_ref.len() > MAX_GOOSE_GOCBREF_LEN {",
    )
    yield Place(group, " 2 add_sv_publisher, name over 64 octets", "fn add_sv_publisher(", "if svid.len() > MAX_SV_SVID_LEN {")
    yield from mms_refusals(group)
    yield from goose_refusals(group)
    yield from sv_refusals(group)


def mms_refusals(group):
    where = "fn inspect_mms("
    yield Place(group, " 4 MMS mask, raw number 16 or above", where, "if !allowed {", "svc >= 16")
    yield Place(group, " 4 MMS mask, bit not in it", where, "if !allowed {", "svc < 16")
    yield Place(group, " 5 MMS read-only, a write", where, "if self.mms_read_only && frame.service_type.is_write() {")
    yield Place(group, " 6 MMS rule is read-only, a write", where, "if rule.read_only && frame.service_type.is_write() {")
    yield Place(group, " 7 MMS bucket empty", where, "if max_rate > 0 && !self.rate_check(frame.invoke_id, max_rate, frame.timestamp_us) {")
    yield Place(group, " 8 MMS strict, no rule applies", where, "} else if self.strict_mode && self.mms_rule_count > 0 {")


def goose_refusals(group):
    where = "fn inspect_goose("
    yield Place(group, " 9 GOOSE test frame while blocked", where, "if self.block_test_frames && frame.test {")
    yield Place(group, "10 GOOSE no publisher fits", where, "if !found {")
    yield Place(group, "11 GOOSE control block bound to another", where, "true,\n            frame.src_mac,\n        ) {")
    yield Place(group, "12 GOOSE clock", where, "frame.t_fraction_of_second,\n        ) {")
    yield Place(group, "13 GOOSE replay", where, "if matches!(replay, Some(true)) {")


def sv_refusals(group):
    where = "fn inspect_sv("
    yield Place(group, "14 SV svID registered with another address", where, "if matched_svid && !mac_ok {")
    yield Place(group, "15 SV strict, svID not registered", where, "if !matched_svid && self.strict_mode {")
    yield Place(group, "16 SV data set bound to another", where, "frame.src_mac,\n            )\n        {")
    yield Place(group, "17 SV clock", where, "frame.t_fraction_of_second,\n        ) {")
    yield Place(group, "18 SV replay", where, "SvSeqOutcome::Replay => {")
    yield Place(group, "19 SV gap above the limit", where, "if self.sv_max_smp_cnt_gap > 0 && gap > self.sv_max_smp_cnt_gap {")
    yield Place(group, "20 SV rates unequal", where, "&& frame.smp_rate != bound_publisher_smp_rate\n        {")
    yield Place(group, "not refused: SV count suspicious", where, "SvSeqOutcome::SuspiciousSmpGap(_) => {")
    yield Place(group, "not refused: GOOSE outside tolerance", "fn inspect_goose(", "if retx_anomaly {")
    yield Place(group, "not refused: reservation table full", "fn inspect_mms(", "if r.is_err() {")


def evictions():
    group = "eviction"
    yield Place(group, "bucket", "fn rate_check(", "let slot = first_free.unwrap_or(lru_idx);", "first_free.is_none()", BEFORE)
    yield Place(group, "GOOSE stream", "fn check_goose_seq(", "// LRU eviction.", "", BEFORE)
    yield Place(group, "SV stream", "fn check_sv_seq(", "// LRU evict.", "", BEFORE)
    yield Place(group, "clock", "fn check_time_field(", "// LRU evict.", "", BEFORE)


def reservations():
    group, where = "reservation", "fn reserve_cb("
    again, free, now = "if entry.matches_ref(cb_ref, cb_ref_len, is_goose) {", "if !entry.active {", "let now = self.cb_reservation_tick;"
    for kind, test in (("GOOSE", "is_goose"), ("SV", "!is_goose")):
        yield Place(group, f"reserve new, {kind}", where, free, test)
    yield Place(group, "reserve new, the empty name", where, free, "cb_ref_len == 0")
    yield Place(group, "reserve new, the other kind reserved", where, now, OTHER_ONLY)
    yield Place(group, "reserve over the same client", where, again, "entry.owner_client_id == client_id")
    yield Place(group, "take over from another client", where, again, "entry.owner_client_id != client_id")
    yield Place(group, "reserve again what was bound", where, again, "entry.bound")
    yield Place(group, "table full", where, "        Err(VsError::ResourceExhausted)", "", BEFORE)
    yield from releases(group)
    yield from uses(group)


def releases(group):
    where = "fn release_cb("
    found, whole = "                *entry = CbReservation::empty();\n                return;", "if cb_ref_len == 0 || cb_ref.is_empty() {"
    begin = "        for entry in &mut self.cb_reservations {\n            if entry.matches_ref"
    yield Place(group, "release by name", where, found, "", BEFORE)
    yield Place(
        group, "release by name, of another client, refused", where, begin,
        f"{THIS_KIND} && !{OWN} && e.matches_ref(cb_ref, cb_ref_len, is_goose))", BEFORE,
    )
    yield Place(
        group, "release by name, kind differs", where, begin, f"{OTHER_ONLY} && {OWN} && e.matches_ref(cb_ref, cb_ref_len, !is_goose))",
        BEFORE,
    )
    yield Place(group, "release by name, not reserved", where, begin, f"!{THIS_KIND} && !{OTHER_KIND}", BEFORE)
    yield Place(group, "release all by the empty name", where, whole, f"{OWN})")
    yield Place(group, "release all, of both kinds", where, whole, f"{OWN} && e.is_goose) && {OWN} && !e.is_goose)")
    others = "self.cb_reservations.iter().any(|e| e.active && e.owner_client_id != client_id)"
    yield Place(group, "release all, another client's stay", where, whole, f"{OWN}) && {others}")
    yield Place(group, "release all, none there", where, whole, f"!{OWN})")


def uses(group):
    where, now = "fn cb_hijack_check(", "let now = self.cb_reservation_tick;"
    empty = "self.cb_reservations.iter().any(|e| e.active && {}e.is_goose && e.cb_ref_len == 0)"
    for kind, test in (("GOOSE", "is_goose"), ("SV", "!is_goose")):
        yield Place(group, f"first use binds, {kind}", where, "if !entry.bound {", test)
        yield Place(
            group, f"use by the bound address, {kind}", where, "return entry.bound_src_mac != src_mac;",
            f"{test} && entry.bound_src_mac == src_mac", BEFORE,
        )
        yield Place(
            group, f"hijack, {kind}", where, "return entry.bound_src_mac != src_mac;", f"{test} && entry.bound_src_mac != src_mac", BEFORE,
        )
        yield Place(group, f"use, kind differs, {kind}", where, now, f"{test} && {OTHER_ONLY}")
    yield Place(group, "empty name reserved, not looked up, GOOSE", where, "if cb_ref_len == 0 {", empty.format(""))
    yield Place(
        group, "empty name reserved, not looked up, SV", "fn inspect_sv(", "        if cb_len > 0\n", "cb_len == 0 && " + empty.format("!"),
        BEFORE,
    )


def rules():
    group, where = "rules", "fn inspect_mms("
    yield Place(group, "MMS, FFFF fits a raw number of 16 or above", where, "matched = Some(i);", "svc >= 16")
    yield Place(group, "MMS, a later rule applies", where, "matched = Some(i);", "i > 0")
    yield Place(
        group, "MMS, none applies, not strict", where, "if let Some(rule_idx) = matched {",
        "matched.is_none() && !self.strict_mode && self.mms_rule_count > 0", BEFORE,
    )
    yield Place(group, "MMS, stated length above 64", where, "match frame.service_type {", "frame.domain_len > 64", BEFORE)
    yield Place(
        group, "GOOSE, empty name of the rule fits", "fn matches(&self, src_mac: [u8; 6]", "if self.go_cb_ref_len == 0 {",
        "go_cb_ref_len > 0",
    )
    yield Place(group, "GOOSE, stated length above 64", "fn inspect_goose(", "// Test flag blocking.", "frame.go_cb_ref_len > 64", BEFORE)
    yield Place(group, "SV, a second rule fits name and address", "fn inspect_sv(", "mac_ok = true;", "mac_ok", BEFORE)
    yield Place(
        group, "SV, svID not registered, not strict", "fn inspect_sv(", "if !matched_svid && self.strict_mode {",
        "!matched_svid && !self.strict_mode", BEFORE,
    )
    yield Place(group, "SV, stated length of the svID above 64", "fn inspect_sv(", "let svid_bytes =", "frame.svid_len > 64", BEFORE)
    yield Place(
        group, "SV, stated length of the data set above 64", "fn inspect_sv(", "let svid_bytes =", "frame.dataset_ref_len > 64", BEFORE,
    )


def buckets():
    group, where = "bucket", "fn try_consume("
    yield Place(group, "new, holds capacity - 1", "fn rate_check(", "let slot = first_free.unwrap_or(lru_idx);")
    yield Place(
        group, "known, of another capacity than the rule's", "fn rate_check(", "b.last_used = now_tick;", "b.capacity != max_rate", BEFORE,
    )
    yield Place(group, "an earlier clock fills it", where, "if now_us < self.last_refill_us {")
    yield Place(
        group, "product past 64 bits", where, "let elapsed = now_us - self.last_refill_us;",
        "elapsed.checked_mul(self.capacity as u64).is_none()",
    )
    yield Place(group, "no refill, time kept", where, "if refill > 0 {", "refill == 0 && elapsed > 0", BEFORE)
    yield Place(
        group, "refill below capacity", where, "if refill > 0 {", "(self.tokens as u64).saturating_add(refill) < self.capacity as u64",
    )
    yield Place(
        group, "refill to capacity at most", where, "if refill > 0 {", "(self.tokens as u64).saturating_add(refill) > self.capacity as u64",
    )
    yield Place(group, "one token taken", where, "if self.tokens > 0 {")
    yield Place(group, "no token", where, "if self.tokens > 0 {", "self.tokens == 0", BEFORE)


def goose_streams():
    group, where, retx = "GOOSE stream", "fn check_goose_seq(", "fn inspect_goose("
    lower = "if seq_num < entry.last_sq_num {"
    observed = "let observed = (frame.timestamp_us - entry.last_seen_us).min(u32::MAX as u64);"
    repeated = "entry.last_st_num == frame.st_num && frame.sq_num > entry.last_sq_num"
    yield Place(group, "first frame, free slot", where, "if !entry.active {")
    yield Place(group, "lower stNum", where, "if st_num < entry.last_st_num {")
    yield Place(group, "higher stNum", where, "if st_num > entry.last_st_num {")
    yield Place(group, "equal sqNum", where, "if seq_num == entry.last_sq_num {")
    yield Place(group, "lower sqNum", where, lower)
    yield Place(group, "higher sqNum", where, lower + "\n                    return Some(true);\n                }")
    yield Place(
        group, "enforced, earlier time, not checked", retx, "let entry = self.goose_seq_table[prev];",
        repeated + " && frame.timestamp_us < entry.last_seen_us",
    )
    yield Place(group, "enforced, distance cut to 32 bits", retx, observed, "frame.timestamp_us - entry.last_seen_us > u32::MAX as u64")
    yield Place(group, "enforced, too early", retx, "retx_anomaly = true;", "observed < u64::from(expected)")
    yield Place(group, "enforced, too late", retx, "retx_anomaly = true;", "observed > u64::from(expected)")
    yield Place(group, "enforced, checked", retx, observed)


def clocks():
    group, where = "clock", "fn check_time_field("
    back, delta = "// Update so subsequent legit traffic does not keep", "let delta = t_secs.saturating_sub(entry.last_t_seconds);"
    yield Place(group, "pair (0,0), neither checked nor kept", where, "if t_secs == 0 && t_frac == 0 {")
    yield Place(group, "first pair, free slot", where, "if !entry.active {")
    yield Place(group, "earlier seconds", where, back, "t_secs < entry.last_t_seconds", BEFORE)
    yield Place(group, "equal seconds, earlier fraction", where, back, "t_secs == entry.last_t_seconds", BEFORE)
    yield Place(group, "ahead by the limit", where, delta, "delta == self.time_max_forward_jump_s")
    yield Place(group, "ahead by more than the limit", where, "if delta > self.time_max_forward_jump_s {")
    yield Place(
        group, "ahead, no limit", where, "// Forward jump beyond configured threshold.",
        "self.time_max_forward_jump_s == 0 && t_secs > entry.last_t_seconds", BEFORE,
    )


def sv_streams():
    group, where = "SV stream", "fn check_sv_seq("
    backward, forward = "let backward = prev - smp_cnt;", "let forward_across_wrap: u32 = (u16::MAX as u32 + 1) - backward as u32;"
    limit, gap = "self.sv_max_smp_cnt_gap", "SvSeqOutcome::ForwardGap(gap) => {"
    yield Place(group, "first frame, free slot", where, "if !entry.active {")
    yield Place(group, "equal count, replay", where, "if smp_cnt == prev {")
    yield Place(group, "below by 32766 or less, replay", where, "if backward < u16::MAX / 2 {")
    yield Place(group, "below by 32766", where, backward, "backward == 32766")
    yield Place(group, "below by 32767", where, backward, "backward == 32767")
    yield Place(group, "wrap", where, "return SvSeqOutcome::CycleWrap;", "", BEFORE)
    yield Place(group, "wrap by 256", where, forward, "forward_across_wrap == 256")
    yield Place(group, "suspicious by 257", where, forward, "forward_across_wrap == 257")
    yield Place(group, "suspicious", where, "if forward_across_wrap > MAX_SMP_GAP_WINDOW as u32 {")
    yield Place(group, "gap, no limit", "fn inspect_sv(", gap, f"{limit} == 0")
    yield Place(group, "gap at the limit", "fn inspect_sv(", gap, f"{limit} > 0 && gap == {limit}")
    yield Place(group, "gap one above the limit", "fn inspect_sv(", gap, f"{limit} > 0 && gap - 1 == {limit}")


# What is read of a frame, and why a frame is unreadable.
def reading():
    group, where = "reading", "fn parse_sv("
    stated = "if (length as usize) < 8 || offset + (length as usize) > bytes.len() {"
    yield Place(group, "802.1Q tag", where, "if ethertype == ETHERTYPE_VLAN_8021Q {")
    yield Place(group, "padding behind the APDU", where, "let apdu_start = offset + 8;", "offset + (length as usize) < bytes.len()", BEFORE)
    yield Place(group, "unreadable: fewer than 14 octets", where, "if bytes.len() < 14 {")
    yield Place(group, "unreadable: cut within the tag", where, "if bytes.len() < offset + 4 {")
    yield Place(group, "unreadable: EtherType is not 88BA", where, "if ethertype != ETHERTYPE_SV {")
    yield Place(group, "unreadable: cut within the header", where, "if bytes.len() < offset + 8 {")
    yield Place(group, "unreadable: length field below 8", where, stated, "(length as usize) < 8")
    yield Place(group, "unreadable: length field past the end", where, stated, "(length as usize) >= 8")
    yield from wrappers(group)
    yield from fields(group)
    yield from elements(group)


def wrappers(group):
    where = "fn decode_sv_apdu("
    no_60, no_30 = "            apdu\n        }\n    } else {", "            seq_asdu\n        }\n    } else {"
    yield Place(group, "no outer 60", where, no_60, "", BEFORE)
    yield Place(group, "no 30 in A2", where, no_30, "", BEFORE)
    yield Place(group, "an element before A2", where, "cursor = rest;")
    yield Place(group, "octets behind A2", where, "seq_asdu = Some(content);", "!rest.is_empty()")
    yield Place(group, "unreadable: empty APDU", where, no_60)
    yield Place(group, "unreadable: no A2", where, "let seq_asdu = seq_asdu.ok_or(", "seq_asdu.is_none()", BEFORE)
    yield Place(group, "unreadable: empty A2", where, no_30)


def fields(group):
    where, time = "fn decode_sv_apdu(", "0x84 => {"
    yield Place(group, "svID again, shorter", where, "svid_len = content.len() as u8;", "(svid_len as usize) > content.len()", BEFORE)
    yield Place(
        group, "data set again, shorter", where, "dataset_ref_len = content.len() as u8;", "(dataset_ref_len as usize) > content.len()",
        BEFORE,
    )
    yield Place(group, "smpCnt again", where, "found_smp_cnt = true;", "found_smp_cnt", BEFORE)
    yield Place(group, "time of 0 to 3 octets", where, time, "content.len() < 4")
    yield Place(group, "time of 4 to 6 octets", where, time, "content.len() >= 4 && content.len() < 7")
    yield Place(group, "time of 7 octets or more", where, time, "content.len() >= 7")
    yield Place(
        group, "time again, without a fraction", where, time, "content.len() >= 4 && content.len() < 7 && t_fraction_of_second != 0",
    )
    yield Place(group, "other tag skipped", where, "            _ => {")
    yield Place(group, "unreadable: svID over 64 octets", where, "if content.len() > MAX_SV_SVID_LEN {")
    yield Place(group, "unreadable: data set over 64 octets", where, "if content.len() > MAX_SV_DATASET_REF_LEN {")
    yield Place(group, "unreadable: smpCnt not of 2 octets", where, "if content.len() != 2 {")
    yield Place(
        group, "unreadable: rate of no octets", "fn decode_unsigned_int(", "if content.is_empty() || content.len() > 4 {",
        "content.is_empty()",
    )
    yield Place(
        group, "unreadable: rate over 4 octets", "fn decode_unsigned_int(", "if content.is_empty() || content.len() > 4 {",
        "content.len() > 4",
    )
    yield Place(group, "unreadable: rate above 65535", "fn decode_unsigned_int(", "if acc > u16::MAX as u32 {")
    yield Place(group, "unreadable: no smpCnt", where, "if !found_smp_cnt {")


# The element that is read at each level, and why it is unreadable. The first octets of 60 and 30 are not of a tag with five low bits set.
def elements(group):
    reasons = (
        ("tag with five low bits set", "if tag & 0x1F == 0x1F {", "true"),
        ("element of one octet", "if bytes.len() < 2 {", "true"),
        ("first length octet 80", "if n == 0 || n > 4 {", "n == 0"),
        ("first length octet 85 to FF", "if n == 0 || n > 4 {", "n > 4"),
        ("length octets missing", "if bytes.len() < 2 + n {", "true"),
        ("length above 65535", "if acc > u16::MAX as u32 {", "true"),
        ("content past the end", "if content_end > bytes.len() {", "true"),
    )
    for (why, text, test), level in reasons_at_levels(reasons):
        yield Place(
            group, f"unreadable: {why}, in {LEVELS[level]}", "fn parse_tlv(", text, f"{test} && vs_types_ind::counted::at_level({level})",
        )
    longer = "acc < 128 || n > 2 || (n == 2 && acc < 256)"
    yield Place(group, "length in more octets than needed", "fn parse_tlv(", "(acc as usize, 1 + n)", longer, BEFORE)


def reasons_at_levels(reasons):
    for reason in reasons:
        for level in range(len(LEVELS)):
            if reason[0].startswith("tag") and level in (0, 2):
                continue
            yield reason, level


# The statements that say at which level an element is read: the function, the text before which they stand, and the level.
LEVEL_STATEMENTS = (
    ("fn decode_sv_apdu(", "let (_tag, content, _rest) = parse_tlv(apdu)?;", 0),
    ("fn decode_sv_apdu(", "let (tag, content, rest) = parse_tlv(cursor)?;", 1),
    ("fn decode_sv_apdu(", "let (_tag, content, _rest) = parse_tlv(seq_asdu)?;", 2),
    ("fn decode_sv_apdu(", "let (tag, content, rest) = parse_tlv(walk)?;", 3),
)

PLACES = (*refusals(), *evictions(), *reservations(), *rules(), *buckets(), *goose_streams(), *clocks(), *sv_streams(), *reading())
