"""The check of bench/serve: one short run of each row, and servers that are wrong on purpose."""

import os

import measuring
import rows
from servers import OUT, Server

# One short run: a slow server is given time, and a quick one no more than so many messages of each publisher. A burst is sent whole.
SHORT = ["warm=0", "measured=400", "patience=15000", "most=20000", "whole"]
SHORT_OF_BURST = ["measured=400", "patience=15000", "whole"]
IDLE_SECONDS = 0.1
SILENCE = 0.1
SMALL = 10

# What a wrong server does, the row that shows it, what has to be told of it, and whether nothing else may be.
ONE_TOPIC = rows.Row("one topic", "size=64 publishers=4 readers=4")
TRANSACTIONS = rows.Row("transactions", "size=64 publishers=4 readers=4 topics=2 each=2 sends=4", 2)
WRONG = {
    "drops": (ONE_TOPIC, "lost", False),
    "doubles": (ONE_TOPIC, "doubled", False),
    "changes": (ONE_TOPIC, "changed", False),
    "reorders": (ONE_TOPIC, "reordered", True),
    "splits": (TRANSACTIONS, "split", False),
    "disagrees": (TRANSACTIONS, "disagreeing", True),
}
ALL = (*measuring.FAULTS, "split", "disagreeing")


def run_load(server, row, prefix, is_strict):
    """One short run, what it came to, and why it isn't right; None where it is."""
    run = measuring.halved if row.kind == "half" else measuring.loaded
    report, _ = run(server, row, prefix, SHORT_OF_BURST if row.kind == "burst" else SHORT)
    fault = measuring.order_fault(report, is_strict)
    came = f"{report.get('all_came', 0):,} deliveries"
    if fault is None and not report["all_came"]:
        fault = "nothing came"
    if report.get("split") or report.get("disagreeing"):
        came += f"; {report['disagreeing']} of {report['streams']} streams in another order, {report['split']} transactions split"
    return came, fault


def check_row(row, prefix, name, program, is_strict):
    """Whether one short run of a row is right; says what it came to."""
    with program(rows.names(row, prefix)) as server, measuring.busy_processes(row.busy):
        if row.kind == "idle":
            measuring.idle_figures(server, prefix, rows.IDLE, IDLE_SECONDS)
            came, fault = f"{rows.IDLE} connections were served", None
        elif row.kind == "small":
            measuring.small_write_figures(server, prefix, SMALL)
            came, fault = f"{SMALL} transactions were answered", None
        elif row.kind == "first":
            measuring.first_figures(server, prefix, SILENCE)
            came, fault = "it came", None
        else:
            came, fault = run_load(server, row, prefix, is_strict)
    print(f"{'right' if fault is None else 'NO RESULT'}: {row.name}, {name}: {fault or came}", flush=True)
    return fault is None


def check_wrong(does):
    """Whether a wrong server is refused, for what it does."""
    row, told, is_alone = WRONG[does]
    with Server([os.path.join(OUT, "wrong"), does], rows.names(row, "w")) as server:
        report = measuring.load(server, row, "w", ["warm=0", "measured=400", "patience=1000", "whole"])
    fault = measuring.order_fault(report, True)
    others = [it for it in ALL if it != told and report.get(it)]
    is_right = fault is not None and report.get(told, 0) > 0 and not (is_alone and others)
    print(f"{'refused' if is_right else 'NOT REFUSED AS IT SHOULD BE'}: a server that {does}: {fault}", flush=True)
    return is_right


def check(chosen, programs, strict):
    """Whether all rows are right with all programs, and all wrong servers are refused."""
    good = [
        check_row(row, f"r{at}t", name, program, name == strict)
        for at, row in enumerate(chosen)
        for name, program in rows.programs_for(row, programs).items()
    ]
    good += [check_wrong(does) for does in WRONG]
    print(f"{sum(good)} of {len(good)} as they should be")
    return all(good)
