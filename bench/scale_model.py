#!/usr/bin/env python3
# SPDX-License-Identifier: BSD-3-Clause
"""Says how many devices (evsched_shards.h) and machines a load wants, from what was measured of one device and how the load falls on flows.

    scale_model.py plan LOAD FLOWS --device RATE --worker RATE --flow RATE [--half RATE] [--keeps SHARE] [--serves own|all]
                                   [--processors N] [--others N] [--full SHARE]
    scale_model.py check TABLE

All rates and the load are events a second. `plan` prints, device by device, what they pass, and what is wanted:

    FLOWS        uniform:N, half:N (one flow has half of the load, N others share the rest), or a file of a trace: a line `FLOW COUNT` for
                 each flow
    --device     what one device passes where all flows have as many events, with as many workers as are to serve each device
    --flow       what it passes where all events are of one flow of an atomic queue, with as many workers
    --half       what it passes where one flow has half of them: by default what lies between the two
    --worker     what one worker passes, with what it does with an event
    --keeps      what share of its rate a device keeps where NEWs are dealt evenly to several on the same machine: 1 by default
    --serves     whether each device has workers of its own, or each worker serves all
    --processors of a machine, 16 by default, and --others of these that do something else, 0 by default
    --full       how full a processor may be, 0.7 by default

An event of a device costs so much by how large a share its hottest flow has, between what was measured with none, half and all; the group
is full when the device is whose share of the load costs most.

`check` reads what bench/shards prints (`bench/against_event_sw shards`). Of each kind of serving it takes one device with as many workers
as serve each device of the group, and of the group with even flows what share of its rate a device keeps. From these it foretells the
group's rows in which one flow has half of the load, or all of it, and fails where one is off by more than 20 per cent.
"""
import argparse
import math
import pathlib
import sys

MOST = 0.2
MOST_DEVICES, MOST_MACHINES = 32, 64
# The flows of bench/shards.
FLOWS = 1024
MULTIPLIER, WORD = 0xD6E8FEB86659FD93, (1 << 64) - 1


def hashed(flow, queue=0):
    """As evsched_shards_hash."""
    it = (queue << 32 | flow) + 1
    it = (it ^ it >> 16) * MULTIPLIER & WORD
    it = (it ^ it >> 32) * MULTIPLIER & WORD
    return it >> 32


def shares(flows, count):
    """What share of the load each of so many devices has, as evsched_shards_of places the flows."""
    sums = [0.0] * count
    for flow, share in flows.items():
        sums[hashed(flow) * count >> 32] += share
    return sums


def scaled(counts):
    whole = sum(counts.values())
    if whole <= 0:
        sys.exit("there are no events in the flows")
    return {flow: count / whole for flow, count in counts.items()}


def halves(count):
    """Flow 0 has half of the load; it is one of those that share the rest, too."""
    flows = {flow: 0.5 / count for flow in range(count)}
    flows[0] += 0.5
    return flows


def flows_of(text):
    """The share of each flow."""
    kind, _, number = text.partition(":")
    if kind == "uniform" and number:
        return scaled({flow: 1 for flow in range(int(number))})
    if kind == "half" and number:
        return halves(int(number))
    counts = {}
    for line in pathlib.Path(text).read_text().splitlines():
        flow, count = line.split()
        counts[int(flow, 0)] = counts.get(int(flow, 0), 0) + float(count)
    return scaled(counts)


class Device:
    """What one device passes, by how large a share its hottest flow has."""

    def __init__(self, even, half, one):
        between = 2 / (1 / even + 1 / one)
        self.points = ((0.0, 1 / even), (0.5, 1 / (half or between)), (1.0, 1 / one))

    def rate(self, hottest):
        """Between two points as its time for an event lies."""
        (low, before), (high, behind) = self.points[:2] if hottest < 0.5 else self.points[1:]
        return 1 / (before + (behind - before) * (hottest - low) / (high - low))


def kept(costs, at, keeps, serves, each):
    """What share of its rate a device keeps, of so many on a machine, whose shares of the load cost so much. A worker that serves all asks
    each in turn, whatever it has; where each has workers of its own, it loses by the others only while these are busy."""
    first = at - at % each
    others = [min(1, cost / costs[at]) for it, cost in enumerate(costs[first : first + each], first) if it != at]
    if not others:
        return 1
    return keeps if serves == "all" else 1 - (1 - keeps) * sum(others) / len(others)


def passed(flows, devices, device, keeps, serves, each):
    """What so many devices pass, so many of them on each machine: the one whose share costs most is full first."""
    sums, hottest = shares(flows, devices), [0.0] * devices
    for flow, share in flows.items():
        at = hashed(flow) * devices >> 32
        hottest[at] = max(hottest[at], share)
    costs = [sum / device.rate(hot / sum) if sum > 0 else 0 for hot, sum in zip(hottest, sums)]
    return min(kept(costs, at, keeps, serves, each) / cost for at, cost in enumerate(costs) if cost > 0)


def fits(given, flows, machines, devices):
    """Workers of each machine, where so many machines of so many devices carry the load; else None. A device's number says its machine."""
    if given.load > given.full * passed(flows, machines * devices, given.one, given.keeps, given.serves, devices):
        return None
    each = shares(flows, machines * devices)
    busiest = max(sum(each[at * devices : (at + 1) * devices]) for at in range(machines))
    workers = math.ceil(given.load * busiest / (given.full * given.worker))
    return workers if devices + workers + given.others <= given.processors else None


def wanted(given, flows):
    """The fewest machines, and of these the fewest devices, that carry the load: machines, and of each its devices and workers."""
    for machines in range(1, MOST_MACHINES + 1):
        for devices in range(1, min(MOST_DEVICES, given.processors - given.others - 1) + 1):
            workers = fits(given, flows, machines, devices)
            if workers is not None:
                return machines, devices, workers
    return None


def plan(given):
    flows = flows_of(given.flows)
    largest = max(flows.values())
    given.one = Device(given.device, given.half, given.flow)
    print(f"{len(flows):,} flows, of which the largest has {largest:.1%} of the load")
    print(f"{'devices':>7} {'busiest has':>11} {'they pass':>13}")
    for devices in (1, 2, 3, 4, 6, 8, 12, 16, 24, 32):
        print(f"{devices:7} {max(shares(flows, devices)):11.1%} {passed(flows, devices, given.one, given.keeps, given.serves, devices):13,.0f}")
    if given.load * largest > given.full * given.flow:
        sys.exit("no number of devices carries it: the largest flow alone is more than one passes, so it is to become several")
    found = wanted(given, flows)
    if found is None:
        sys.exit(f"{MOST_MACHINES} machines don't carry it: too much falls on one device beside the largest flow, or wants too many workers")
    machines, devices, workers = found
    print(f"wanted: machines {machines}; of each, devices {devices}, workers {workers}")


def rows_of(path):
    """The mean rates of a table, by processors and kind, and how many devices there were."""
    rows, devices = {}, {}
    for line in pathlib.Path(path).read_text().splitlines():
        words = line.split()
        if len(words) == 8 and words[0].isdigit():
            rows.setdefault((int(words[0]), words[2]), {})[words[1]] = float(words[5]) * 1e6
            devices[int(words[0]), words[2]] = int(words[3])
    return rows, devices


def check(given):
    """Whether the rows of groups with a hot flow are as foretold."""
    rows, devices = rows_of(given.table)
    kinds = {"uniform": scaled({flow: 1 for flow in range(FLOWS)}), "half": halves(FLOWS), "one": {0: 1.0}}
    worst = count = 0
    print(f"{'processors':>10} {'kind':10} {'flows':8} {'measured':>12} {'foretold':>12} {'ratio':>6}")
    for (processors, kind), rates in rows.items():
        if not kind.startswith("serves") or devices[processors, kind] < 2:
            continue
        one = rows[processors, kind.replace("serves", "one-of")]
        if min(*rates.values(), *one.values()) <= 0:
            sys.exit("a row passed nothing")
        device, count_of, serves = Device(one["uniform"], one["half"], one["one"]), devices[processors, kind], kind.removeprefix("serves-")
        keeps = rates["uniform"] / passed(kinds["uniform"], count_of, device, 1, serves, count_of)
        print(f"{processors:10} {kind:10} {'uniform':8} {rates['uniform']:12,.0f} a device keeps {keeps:.2f} of its rate")
        for flows in ("half", "one"):
            foretold = passed(kinds[flows], count_of, device, keeps, serves, count_of)
            print(f"{processors:10} {kind:10} {flows:8} {rates[flows]:12,.0f} {foretold:12,.0f} {rates[flows] / foretold:6.2f}")
            worst, count = max(worst, abs(rates[flows] / foretold - 1)), count + 1
    if not count:
        sys.exit("there is no row of several devices")
    sys.exit(0 if worst <= MOST else 1)


def main():
    parser = argparse.ArgumentParser(description=__doc__, formatter_class=argparse.RawDescriptionHelpFormatter)
    calls = parser.add_subparsers(required=True)
    it = calls.add_parser("plan")
    it.set_defaults(call=plan)
    it.add_argument("load", type=float)
    it.add_argument("flows")
    it.add_argument("--serves", choices=("own", "all"), default="own")
    for name in ("--device", "--worker", "--flow"):
        it.add_argument(name, type=float, required=True)
    for name, default in (("--half", None), ("--keeps", 1.0), ("--full", 0.7)):
        it.add_argument(name, type=float, default=default)
    for name, default in (("--processors", 16), ("--others", 0)):
        it.add_argument(name, type=int, default=default)
    it = calls.add_parser("check")
    it.set_defaults(call=check)
    it.add_argument("table")
    given = parser.parse_args()
    given.call(given)


main()
