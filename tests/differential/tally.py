# The tally: how often scripts reached each refusal, alert, eviction, reservation case and reading, by the counts of the counted copy of the Rust.
# `add` adds a file of counts to a tally, `show` prints it as a table, where what was never reached stands with 0.
# Entries of equal age are not in it: each use of a table has its own tick, so ages are equal only once 2^32 uses have made the tick wrap.
import collections
import json

import places

CALLS = "new new_strict reset totals set_mms_service_mask set_mms_read_only set_block_test_frames set_sv_max_smp_cnt_gap set_retx_schedule"
CALLS += " set_time_max_forward_jump_s add_mms_rule add_goose_publisher add_sv_publisher inspect_mms inspect_goose inspect_sv inspect_raw_sv"
CALLS = (CALLS + " parse_sv service interval bucket").split()
SV_RESULTS = (
    "allowed", "allowed Medium:27", "refused Medium:6", "refused High:28", "refused High:29", "refused High:26", "refused High:31",
)
SV_RESULTS += ("refused Medium:27", "refused Medium:27 Medium:27", "refused High:31 High:26", "refused High:31 Medium:27")
SV_RESULTS += ("refused High:31 Medium:27 Medium:27",)
# The verdicts that each inspection can give, each with the severities and codes of its alerts.
RESULTS = {
    "inspect_mms": ("allowed", "allowed Low:23", "refused Medium:7", "refused High:2", "refused Medium:4", "refused Medium:16"),
    "inspect_goose": (
        *("allowed", "allowed Medium:30", "refused Medium:6", "refused High:6", "refused High:29", "refused High:3", "refused High:31"),
        *("refused High:31 High:3", "refused High:31 Medium:30"),
    ),
    "inspect_sv": SV_RESULTS,
    "inspect_raw_sv": SV_RESULTS,
}
# Why a line is malformed; the counted copy does not count this.
MALFORMED = ("too long", "unknown call", "argument K missing", "argument K malformed", "argument K unexpected")


# A tally of calls with every row at 0, by group and row.
def empty():
    rows = [("call", name) for name in CALLS]
    rows += [(place.group, place.what) for place in places.PLACES]
    rows += [("refusal", f" 3 {name}, unreadable frame") for name in ("inspect_raw_sv", "parse_sv")]
    rows += [("result", f"{name} {verdict}") for name, verdicts in RESULTS.items() for verdict in verdicts]
    rows += [("alert", f"{name} {alert}") for name, verdicts in RESULTS.items() for alert in alerts(verdicts)]
    return collections.Counter({row: 0 for row in rows})


# The alerts in some verdicts, in the order of their codes.
def alerts(verdicts):
    return sorted({alert for verdict in verdicts for alert in verdict.split()[1:]}, key=lambda alert: int(alert.split(":")[1]))


# The rows that one line of counts adds to.
def rows_of(name):
    kind, _, rest = name.partition(" ")
    if kind == "place":
        place = places.PLACES[int(rest)]
        return [(place.group, place.what)]
    if kind == "call":
        return [("call", rest)]
    if kind == "error":
        made, number = rest.split()
        return [("refusal", f" 3 {made}, unreadable frame")] if made in ("inspect_raw_sv", "parse_sv") else []
    made, verdict, *found = rest.split()
    return [("result", rest), *(("alert", f"{made} {alert}") for alert in found)]


# Adds the counts of a file.
def add(tally, path):
    for line in open(path):
        count, _, name = line.rstrip("\n").partition(" ")
        for row in rows_of(name):
            tally[row] += int(count)


# Writes the tally as JSON, by group and row.
def save(tally, path):
    groups = {}
    for (group, what), count in tally.items():
        groups.setdefault(group, {})[what.strip()] = count
    with open(path, "w") as file:
        json.dump(groups, file, indent=1)
        file.write("\n")


# The lines of the table: the groups in their order, and in a group the refusals by their numbers.
def table(tally):
    order = list(dict.fromkeys(group for group, _ in tally))
    for group in order:
        rows = [(what, count) for (of, what), count in tally.items() if of == group]
        if group == "refusal":
            rows.sort(key=lambda row: row[0][:2])
        yield from (f"{group:16}{what.strip() if group != 'refusal' else what:64}{count:12}" for what, count in rows)


# Prints the table, and how many of its rows were never reached.
def show(tally):
    print("\n".join(table(tally)))
    missed = [f"{group}: {what.strip()}" for (group, what), count in tally.items() if count == 0]
    print(f"{len(tally) - len(missed)} of {len(tally)} kinds reached" + "".join(f"\nnot reached: {row}" for row in missed))
