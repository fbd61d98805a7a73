"""What `lernazhup read --json` says of the captures, on standard input, against the numbers that
are stored of each: once in the plain profile, then in the checked one, in which a report's FCS has
to be right.
    told_json.py captures/said"""
import json
import os
import sys

from fcs import right_fcs

CHECKED = {14, 15, 16}  # what the check refuses, in the checked profile alone
RADIOS = ["868/915 BPSK", "2450 O-QPSK", "868/915 O-QPSK"]
MEANINGS = {0: "done", 4: "chips run out", 6: "symbol lost", 7: "preamble not zero", 14: "too few octets", 15: "wrong FCS", 16: "every octet 0"}
BEST, EDGE = [15, 12, 6], [3, 2, 2]  # gaps by mode
HINTS = {  # those of the captures, with their numbers; "check" is that of every capture the check refuses
    "aerial-pulled-mode1": {"hint": "flat-from", "from": 799, "count": 289, "chip": 0},
    "aerial-pulled-mode2": {"hint": "flat-from", "from": 400, "count": 144, "chip": 0},
    "aerial-unplugged": {"hint": "flat", "from": 0, "count": 15960, "chip": 0},
    "cut-short-mode1": {"hint": "short", "mode": 1, "wanted": 1088, "length_read": True, "came": 1000},
}


def text_of(octets):
    return "".join(chr(octet) if 0x20 <= octet < 0x7F else "." for octet in octets)


def check_mode(outcome):
    assert outcome["radio"] == RADIOS[outcome["mode"]] and outcome["meaning"] == MEANINGS[outcome["number"]]


def check_report(report, numbers, inverted):
    check_mode(report)
    gap, best = report["gap"], BEST[report["mode"]]
    assert report["best_gap"] == best and report["polarity"] == (1 if inverted else 0)
    assert report["closeness"] == ("best" if gap == best else "edge" if gap == EDGE[report["mode"]] else "between")
    octets = bytes.fromhex(report["octets"])
    size, octet_chips = {0: (15, 120), 1: (32, 64), 2: (16, 32)}[report["mode"]]
    told = [report["mode"], report["number"], report["chips"] // size, report["n"], report["repaired"], report["gap"]]
    assert told == numbers, (told, numbers)
    assert report["chips"] == octet_chips * (6 + len(octets)) and report["n"] == len(octets)
    assert report["text"] == text_of(octets)
    if len(octets) < 3:
        assert report["fcs"] == "too short" and "right_fcs" not in report
    else:
        right = right_fcs(octets[:-2])
        assert bytes.fromhex(report["right_fcs"]) == right
        assert report["fcs"] == ("right" if octets[-2:] == right else "wrong")
    assert report["all_zero"] == (len(octets) > 0 and not any(octets))
    assert report["left_over"] == 0


def check_refusal(refusal, numbers):
    check_mode(refusal)
    number, symbol = numbers[1:3]
    if refusal["number"] in CHECKED:
        number, symbol = refusal["number"], refusal["symbol"]
    assert [refusal["number"], refusal["symbol"]] == [number, symbol], (refusal, numbers)
    size, per = {0: (15, 8), 1: (32, 2), 2: (16, 2)}[refusal["mode"]]
    assert refusal["byte"] == symbol * size and refusal["octet"] == symbol // per
    part, first = [("preamble", 0)] * 4 + [("start", 4), ("length", 5)] + [("report", 6)] * 127, refusal["octet"]
    if refusal["number"] in CHECKED:
        assert refusal["part"] == "end"
    else:
        name, first = part[refusal["octet"]]
        assert refusal["part"] == name
    assert refusal["octet"] - first == refusal["octet_of_part"]


def check_hints(told, name):
    checked = [refusal["mode"] for refusal in told["refusals"] if refusal["number"] in CHECKED]
    wanted = [{"hint": "check", "mode": mode, "later": 0} for mode in checked] or [HINTS[name]]
    for hint in told["hints"]:
        assert hint.pop("words")
    assert told["hints"] == wanted, (told["hints"], wanted)


def check_line(line, stored, checked):
    told = json.loads(line)
    name = os.path.basename(told["file"])[: -len(".raw")]
    rows = stored[name]
    assert told["profile"] == ("checked" if checked else "plain")
    for report in told["reports"]:
        check_report(report, rows[report["mode"]], "inverted" in name)
        assert not checked or (report["fcs"] == "right" and not report["all_zero"])
    for refusal in told["refusals"]:
        check_refusal(refusal, rows[refusal["mode"]])
        assert (refusal["number"] in CHECKED) <= checked
    reads = [row[0] for row in rows if row[1] == 0]
    if not checked:
        assert [report["mode"] for report in told["reports"]] == reads
    assert bool(told["reports"]) != bool(told["refusals"])
    assert told["reports"] or [refusal["mode"] for refusal in told["refusals"]] == [0, 1, 2]
    if told["reports"]:
        assert not told["hints"]
    else:
        check_hints(told, name)


def main():
    with open(sys.argv[1], encoding="ascii") as lines:
        stored = {words[0]: [list(map(int, row.split("_"))) for row in words[1:]] for words in map(str.split, lines)}
    told = sys.stdin.read().splitlines()
    assert len(told) == 2 * len(stored), len(told)
    for at, line in enumerate(told):
        check_line(line, stored, at >= len(stored))


main()
