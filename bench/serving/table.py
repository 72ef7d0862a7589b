"""The table of bench/serve: medians over the rounds, and what was no result."""

import os
import platform
import statistics
import subprocess

# A cell without a figure.
NONE = "-"

# What is measured of idle connections.
IDLE = [
    ("memory", "memory a connection", "{:.1f} KiB"),
    ("idle", "processor time of all together", "{:,.0f} us/s"),
]


class Cell:
    """What the rounds of one row with one server gave: figures of each, or why one of them is no result."""

    def __init__(self):
        self.rounds, self.fault = [], None
        self.split = self.disagreeing = self.streams = self.all_came = 0

    def add(self, found, fault):
        if fault is not None and self.fault is None:
            self.fault = fault
        self.rounds.append(found)

    def note(self, report):
        """Keeps how many streams weren't in one order, and how many transactions weren't whole."""
        for name in ("split", "disagreeing", "streams", "all_came"):
            setattr(self, name, getattr(self, name) + report.get(name, 0))

    def median(self, name):
        return statistics.median(it[name] for it in self.rounds)


def is_result(cell, name):
    return cell is not None and cell.fault is None and bool(cell.rounds) and all(name in it for it in cell.rounds)


def ratio(cells, over, under, name):
    """The median of the rounds' ratios, with the least and the greatest; or why there is none."""
    one, other = cells.get(over), cells.get(under)
    for cell, server in ((one, over), (other, under)):
        if cell is not None and cell.fault is not None:
            return f"no result ({server})"
    if not is_result(one, name) or not is_result(other, name):
        return NONE
    each = [a[name] / b[name] for a, b in zip(one.rounds, other.rounds) if b[name] > 0]
    if not each:
        return NONE
    return f"{short(statistics.median(each))} ({short(min(each))} to {short(max(each))})"


def short(value):
    """Two digits behind the point, or two that count."""
    return f"{value:.2f}" if value >= 0.1 else f"{value:.2g}"


def figure(cells, server, name, form):
    cell = cells.get(server)
    if cell is not None and cell.fault is not None:
        return f"no result ({server})"
    return form(cell.median(name)) if is_result(cell, name) else NONE


def rate(value):
    return f"{value:,.0f}/s"


def microseconds(value):
    return f"{value:,.1f} us" if value >= 10 else f"{value:.2g} us"


def milliseconds(value):
    return f"{value:,.1f} ms" if value >= 1 else f"{value:.2g} ms"


def line(cells):
    return "| " + " | ".join(cells) + " |"


def head(peers, load):
    """The machine, its load before the run, and the versions."""
    with open("/proc/cpuinfo", encoding="utf-8", errors="replace") as lines:
        model = next((it.split(":", 1)[1].strip() for it in lines if it.startswith("model name")), "a processor")
    compiler = subprocess.run(["cc", "--version"], stdout=subprocess.PIPE, text=True, check=False).stdout.split("\n")[0]
    load = " ".join(f"{it:.1f}" for it in load)
    yield f"{os.cpu_count()} processors ({model}), Linux {platform.release()}, {platform.libc_ver()[1]} of glibc, {compiler}"
    yield f"load of the machine before: {load}" + "".join(f"; {it}" for it in peers)


def ratios(results, peers):
    """The table of ratios: each row's rates or times, and the processor time of a delivery."""
    others = ["shape", *peers]
    yield line(
        ["row", "measured", "floor", "shape / floor", "stompd / floor", *(f"stompd / {it}" for it in others)]
        + ["time of a delivery: floor", "shape / floor", "stompd / floor", "stompd / shape", "generator busy"]
    )
    yield line(["---"] * (9 + len(others) + 1))
    for row, cells in results.items():
        if row.kind == "idle":
            continue
        for name, words, form in measures(row):
            yield line(
                [row.name, words, figure(cells, "floor", name, form)]
                + [ratio(cells, "shape", "floor", name), ratio(cells, "stompd", "floor", name)]
                + [ratio(cells, "stompd", it, name) for it in others]
                + [figure(cells, "floor", "cost", microseconds), ratio(cells, "shape", "floor", "cost")]
                + [ratio(cells, "stompd", "floor", "cost"), ratio(cells, "stompd", "shape", "cost")]
                + [figure(cells, "floor", "busy", "{:.0%}".format)]
            )


def measures(row):
    times = [("p50", "p50", microseconds), ("p99", "p99", microseconds)]
    if row.kind == "latency":
        return times
    if row.kind == "half":
        return [("rate", "deliveries", rate), *times]
    if row.kind == "first":
        return [("first", "time of the message", microseconds)]
    if row.kind == "burst":
        return [("rate", "deliveries", rate), ("last", "time until all came", milliseconds)]
    if row.kind == "small":
        return [("small", "time of a transaction", milliseconds)]
    return [("rate", "deliveries", rate)]


def medians(results, servers):
    """What each server had in each row."""
    yield line(["row", "measured", *servers])
    yield line(["---"] * (2 + len(servers)))
    for row, cells in results.items():
        if row.kind != "idle":
            cost = [] if row.kind in ("small", "first") else [("cost", "time of a delivery", microseconds)]
            for name, words, form in [*measures(row), *cost]:
                yield line([row.name, words, *(figure(cells, it, name, form) for it in servers)])


def growth(results, bases, servers):
    """For each growth, the processor time of a delivery over that of its base row with the same server."""
    yield line(["row", "compared with", *servers])
    yield line(["---"] * (2 + len(servers)))
    rows = {it.name: it for it in results}
    for row, cells in results.items():
        base = rows.get(bases.get(row.growth))
        if base is None or base == row:
            continue
        paired = ({row.name: cells.get(it), base.name: results[base].get(it)} for it in servers)
        yield line([row.name, base.name, *(ratio(it, row.name, base.name, "cost") for it in paired)])


def idle(results, servers):
    yield line(["row", "measured", *servers])
    yield line(["---"] * (2 + len(servers)))
    for row, cells in results.items():
        if row.kind == "idle":
            for name, words, form in IDLE:
                yield line([row.name, words, *(figure(cells, it, name, form.format) for it in servers)])


def remarks(results):
    """What was no result, and what came in another order or split."""
    for row, cells in results.items():
        for server, cell in cells.items():
            if cell.fault is not None:
                yield f"no result: {row.name}, {server}: {cell.fault}"
            if cell.disagreeing or cell.split:
                yield (
                    f"{row.name}, {server}: {cell.disagreeing} of {cell.streams} streams weren't in one order with the others,"
                    f" and {cell.split} times a transaction wasn't whole in a stream, of {cell.all_came:,} deliveries"
                )
