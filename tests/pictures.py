"""Pictures of captures, on standard input, each behind a line of JSON with what the library's own
calls say of the capture: that a picture is well-formed, has nothing in it that acts or comes from
elsewhere, shows as many symbols as there are, in rows, and no number that is not the library's.
    drawn_captures .. | pictures.py COUNT"""
import functools
import json
import re
import sys
import xml.etree.ElementTree as ElementTree

from colours import check_colours
from fcs import right_fcs
from picture_layout import check_layout, check_style
from svg import SVG, classed, equal, middle, square, texts

TAGS = {"svg", "title", "style", "rect", "text", "g", "path"}
ATTRIBUTES = {"class", "x", "y", "width", "height", "d", "viewBox"}
SIZES, ACCEPTED, PER_OCTET, ROWS = [15, 32, 16], [6, 5, 2], [8, 2, 2], [32, 16, 16]  # by mode
RADIOS = ["868/915 BPSK", "2450 O-QPSK", "868/915 O-QPSK"]
BEST, EDGE = [15, 12, 6], [3, 2, 2]  # gaps by mode
PARTS = ["(of the preamble)"] * 4 + ["(the start octet)", "(the length octet)"]
LEGEND = [
    "nearest, next: in how many chips a symbol differs from the nearest code word and from the nearest of the others; their difference is the gap",
    "value: in hex; an octet's low half comes first",
    "a row begins with the number of its first symbol; # is the number of an octet of the report, which is in hex",
]
ENCODED = "value: the encoded bit; an octet's bits are the lowest first, 1 where a value differs from the one before"
DONE, RUNOUT, NOCHIP, LOST = 0, 4, 5, 6
TURNING = {0x200E, 0x200F, *range(0x2028, 0x202F), *range(0x2066, 0x206A)}
LARGEST = 500_000


def shown(raw):
    """A name: what is no UTF-8, a control, no character of XML, or turns the writing, as a dot."""
    text, at = [], 0
    while at < len(raw):
        for length in (1, 2, 3, 4):
            try:
                character = raw[at : at + length].decode("utf-8")
            except UnicodeDecodeError:
                continue
            break
        else:
            character, length = "\0", 1
        code = ord(character[0])
        text.append("." if code < 0x20 or 0x7F <= code < 0xA0 or code in TURNING or code in (0xFFFE, 0xFFFF) else character)
        at += length
    return "".join(text) if len(text) <= 48 else "..." + "".join(text[-48:])


def drawn_mode(facts):
    """The mode asked for, or that reads, or that got farthest, and its facts."""
    if facts["asked"] >= 0:
        mode = facts["asked"]
    else:
        reads = [mode for mode in range(3) if facts["modes"][mode]["number"] == DONE]
        mode = reads[0] if reads else max(range(3), key=lambda mode: (facts["modes"][mode]["place"] * SIZES[mode], -mode))
    return mode, facts["modes"][mode]


def drawn_count(mode, fact):
    """How many symbols are to be seen."""
    if fact["taken"] >= 6 * PER_OCTET[mode]:
        count = (6 + fact["length"]) * PER_OCTET[mode]
    else:
        count = fact["place"] + ROWS[mode]
    return min(count, len(fact["symbols"]))


@functools.lru_cache
def check_rules(style):
    """The style, which is the same in every picture."""
    assert not re.search(r"url|import|expression|http", style), "a style from elsewhere"
    check_colours(style)
    check_style(style)


def check_harmless(root):
    for element in root.iter():
        assert element.tag.startswith(SVG) and element.tag[len(SVG) :] in TAGS, element.tag
        assert set(element.attrib) <= ATTRIBUTES, element.attrib
    (style,) = root.iter(SVG + "style")
    check_rules(style.text)


def colour(mode, symbol):
    number, _, nearest, _ = symbol
    if number == DONE:
        return f"d{int(nearest * 6 / ACCEPTED[mode] + 0.5)}"
    return "lost" if number == LOST else "none"


def check_under(group, cell, number, want):
    """What stands under a cell: on which line, and each in the middle."""
    for line, (kind, text) in enumerate(want):
        (element,) = classed(group, kind)[-1:] or [None]
        assert element is not None and element.tag == SVG + "text", kind
        bottom = int(cell.get("y")) + int(cell.get("height"))
        place = [int(element.get("x")), int(element.get("y")) - bottom]
        equal(kind, [element.text] + place, [text, middle(cell), (15, 28, 40)[line]])
    equal("texts under a symbol", len(list(group.iter(SVG + "text"))), len(want))


def check_symbol(group, at, mode, fact, first):
    number, word, nearest, following = fact["symbols"][at]
    (cell,) = classed(group, "cell")
    equal("colour", cell.get("class"), "cell " + colour(mode, fact["symbols"][at]))
    left, top, width, height = square(cell)
    cross = [f"M{left} {top}l{width} {height}m0 {-height}l{-width} {height}"] if number == LOST else []
    equal("crosses", [path.get("d") for path in classed(group, "cross")], cross)
    equal("faint", "faint" in group.get("class"), at > fact["place"])
    size = SIZES[mode]
    title = f"symbol {at}, bytes {at * size} to {at * size + size - 1}: "
    if number == NOCHIP:
        byte = next(byte for byte in range(at * size, at * size + size) if first[byte] > 1)
        title += f"byte {byte} is {first[byte]}, which is no chip"
        check_under(group, cell, number, [("none", "?")])
    else:
        lost = f"lost, nearest to {word:x}: " if following > nearest else "lost, several words as near: "
        title += lost if number == LOST else f"value {word:x}, "
        title += f"nearest {nearest}, next {following}, gap {following - nearest}"
        value = ("none", "lost") if number == LOST else ("value", f"{word:x}")
        check_under(group, cell, number, [value, ("nearest", str(nearest)), ("next", str(following))])
    equal("title", group.find(SVG + "title").text, title + ("; not read" if at > fact["place"] else ""))


def check_rows(root, mode, fact, places):
    """Rows of equal length; where each has its cells and its notes, and how high all is."""
    wide, high = int(root.get("width")), int(root.get("height"))
    row, rows, width = ROWS[mode], -(-places // ROWS[mode]), 1024 // ROWS[mode]
    equal("the box", root.get("viewBox"), f"0 0 {wide} {high}")
    equal("the height", high, 212 + 106 * rows + 16)
    gaps = [following - nearest for _, _, nearest, following in fact["symbols"][: fact["place"]]]
    noted = [gaps.index(min(gaps))] if gaps else []
    noted.append(fact["place"] if fact["number"] != DONE else fact["place"] - 1)
    top, notes, cells = 212, [], []
    for first in range(0, places, row):
        lines = [at for at in noted if first <= at < first + row]
        notes += [top + 99 + 16 * line for line in range(len(lines))]
        for at in range(first, min(first + row, places)):
            low = 10 if at > fact["place"] else 0
            cells.append([79 + (at - first) * width, top + 24 + low, width - 2, 20 - low])
        top += 106 + 16 * (len(lines) > 1)
    equal("cells", [square(cell) for cell in classed(root, "cell") + classed(root, "missing")], cells)
    equal("lines of notes", [int(note.find(SVG + "text").get("y")) for note in classed(root, "note")], notes)
    for element in root.iter():
        if element.get("x") is not None:
            assert 0 <= int(element.get("x")) <= wide and 0 <= int(element.get("y")) <= high, element.attrib


def framed(root, kind, groups):
    """The symbols with a frame of that kind, a little larger than the cell."""
    frames = [[left + 2, top + 2, width - 4, height - 4] for left, top, width, height in map(square, classed(root, kind))]
    cells = [classed(group, "cell")[0] for group in groups] + classed(root, "missing")
    return [at for at, cell in enumerate(cells) if square(cell) in frames]


def check_worst(root, groups, fact, mode, notes):
    """The first symbol of those read with the smallest gap, and how many more there are."""
    gaps = [following - nearest for _, _, nearest, following in fact["symbols"][: fact["place"]]]
    marked = framed(root, "worst", groups)
    equal("symbols pointed out", marked, [gaps.index(min(gaps))] if gaps else [])
    equal("their frames", len(classed(root, "worst")), len(marked))
    if gaps:
        others = gaps.count(min(gaps)) - 1
        words = f"smallest gap{'' if fact['number'] == DONE else ' of those read'}: {min(gaps)} here"
        words += f", and in {others} more symbol{'s' if others > 1 else ''}" if others else ""
        words += ", the best there is" if min(gaps) == BEST[mode] else ""
        equal("note", notes.pop(0), (words, middle(classed(groups[marked[0]], "cell")[0])))
        assert fact["number"] != DONE or min(gaps) == fact["gap"]


def check_end(root, groups, mode, fact, notes, have):
    number, place = fact["number"], fact["place"]
    words = "the frame ends here" if number == DONE else f"the reading ended here: {number}, {fact['meaning']}"
    cells = [classed(group, "cell")[0] for group in groups]
    equal("how much is missing", len(classed(root, "missing")), int(number == RUNOUT))
    if number == RUNOUT:
        words += f": {have % SIZES[mode]} of {SIZES[mode]} came"
        cells += classed(root, "missing")
        title = list(root.iter(SVG + "title"))[-1].text
        equal("what is missing", title, f"symbol {place}: {have % SIZES[mode]} of its {SIZES[mode]} bytes came")
    equal("the refused symbol", framed(root, "ended", groups), [place] if number != DONE else [])
    equal("the end", notes, [(words, middle(cells[place if number else place - 1]))])
    equal("a refusal's bar", [bar.get("height") for bar in classed(root, "bar")], [root.get("height")] if number != DONE else [])
    rows = -(-(len(cells)) // ROWS[mode])
    lines = [("value", 35), ("nearest", 48), ("next", 60)] + ([("no report", -11)] if number != DONE else [])
    tops = [sum(square(cell)[1::2]) - 20 for cell in cells[:: ROWS[mode]]]
    margins = [[(text.text, int(text.get("y")) - top) for text in margin] for margin, top in zip(classed(root, "margin"), tops)]
    equal("margins", margins, [[(str(row * ROWS[mode]), 14)] + lines for row in range(rows)])


def check_parts(root, mode, fact, count):
    """Preamble, start, length, and where that was read every octet of the report, with its value
    where that was read, too; each with a bracket over its symbols."""
    per, place, done = PER_OCTET[mode], fact["place"], fact["number"] == DONE
    octets = bytes.fromhex(fact["octets"])
    places = count + (fact["number"] == RUNOUT)
    if fact["taken"] < 6 * per:
        places = min(places, 6 * per)
    names, values, numbers, spans = ["preamble"], [], [], [(0, min(places, 4 * per))]
    for octet in range(4, -(-places // per)):
        whole = (octet + 1) * per <= place
        spans.append((octet * per, min(places, (octet + 1) * per)))
        if octet == 4:
            names.append("start")
        elif octet == 5:
            names.append(f"length {fact['length']}" if whole else "length")
        else:
            value = octets[octet - 6]
            numbers.append(f"#{octet - 6}")
            values.append((f"{value:02x}" + (f" '{chr(value)}'" if done and 0x20 <= value < 0x7F else "")) if whole else "")
    equal("parts", texts(root, "name"), names)
    equal("octets", texts(root, "octet"), values)
    equal("octets of a refusal", len(texts(root, "refused")), 0 if done else len(values))
    equal("their numbers", texts(root, "number"), numbers)
    if done:
        equal("the report's octets", len(values), fact["n"])
    check_brackets(root, mode, place, spans)


def check_brackets(root, mode, place, spans):
    """Over which symbols each stands, faint where they were not read, open where some are wanting."""
    wide, row, per = 1024 // ROWS[mode], ROWS[mode], PER_OCTET[mode]
    tops = [sum(square(cell)[1::2]) - 20 for cell in classed(root, "cell") + classed(root, "missing")][::row]
    parts = classed(root, "part")
    equal("brackets", len(parts), len(spans))
    for part, (first, behind) in zip(parts, spans):
        left, length = 80 + first % row * wide, (behind - first) * wide - 4
        end = "v3" if behind % per == 0 else ""
        equal("a bracket", part.find(SVG + "path").get("d"), f"M{left} {tops[first // row] - 3}v-3h{length}{end}")
        equal("a faint one", "faint" in part.get("class"), first >= place)
        equal("its text", int(part.findall(SVG + "text")[-1].get("x")), left + length // 2)


def report_words(mode, fact):
    n, gap = fact["n"], fact["gap"]
    octets = bytes.fromhex(fact["octets"])[:n]
    report = f"a report of {n} octet{'' if n == 1 else 's'} in mode {mode}, {RADIOS[mode]}"
    report += ", every octet of it 0: is the rope plugged in?" if n and not any(octets) else ""
    close = "the best there is" if gap == BEST[mode] else "in between"
    close = "at the edge: one more wrong chip in the worst symbol loses the frame" if gap == EDGE[mode] else close
    repaired = f"{fact['count']} of {(6 + n) * PER_OCTET[mode] * SIZES[mode]} chips repaired, smallest gap {gap} of {BEST[mode]}, {close}"
    fcs = "too short to have one"
    if n > 2:
        right = right_fcs(octets[:-2])
        wrong = f"wrong, or none was sent: it ends in {octets[-2:].hex(' ')}, and an FCS would be {right.hex(' ')}"
        fcs = "right, the last two octets" if octets[-2:] == right else wrong
    limit = sum(nearest == ACCEPTED[mode] for _, _, nearest, _ in fact["symbols"][: fact["place"]])
    far = f"; {limit} symbol{'' if limit == 1 else 's'} as far off as is accepted" if limit else ""
    return [report, repaired, f"polarity {fact['polarity']}, {'inverted' if fact['polarity'] else 'as sent'}; FCS {fcs}{far}"]


def refusal_words(mode, fact, asked, first, count):
    number, place, per = fact["number"], fact["place"], PER_OCTET[mode]
    octet, byte = place // per, place * SIZES[mode]
    if number == NOCHIP:
        byte = next(byte for byte in range(byte, len(first)) if first[byte] > 1)
    part = (PARTS + [f"(octet {octet - 6} of the report)"])[min(octet, 6)]
    refusal = f"no report in mode {mode}, {RADIOS[mode]}: {number}, {fact['meaning']}, at symbol {place}, byte {byte}, octet {octet} {part}"
    how_far = "" if asked >= 0 else "no mode reads it, and none got farther; "
    sized = fact["taken"] >= 6 * per
    how_far += f"{place} of {(6 + fact['length']) * per} symbols read" if sized else f"{place} symbol{'' if place == 1 else 's'} read"
    gaps = [following - nearest for _, _, nearest, following in fact["symbols"][:place]]
    how_far += f", the smallest gap among them {min(gaps)}" if gaps else ""
    faint = ["what is low and faint was not read: it shows how far off each symbol by itself is"] if count > place + 1 else []
    return [refusal, how_far] + faint


def check_words(root, facts, mode, fact, first, count):
    """Every line of words, the key and the legend."""
    name = shown(bytes.fromhex(facts["name"]))
    told = report_words(mode, fact) if fact["number"] == DONE else refusal_words(mode, fact, facts["asked"], first, count)
    limit = ACCEPTED[mode]
    key = ["chips from the nearest word"] + [str(k) for k in range(limit + 1)] + [f"above {limit}: lost", "a byte that is no chip"]
    legend = [LEGEND[0], LEGEND[1] if mode else ENCODED, LEGEND[2]]
    equal("words", texts(root, "words"), [name] + told + key + legend)
    equal("title", root.find(SVG + "title").text, f"{name}: {told[0]}")
    shades = [colour(mode, (DONE, 0, k, 0)) for k in range(limit + 1)] + ["lost", "none"]
    equal("swatches", [swatch.get("class") for swatch in classed(root, "swatch")], ["swatch " + shade for shade in shades])


def check(facts, picture):
    assert len(picture) < LARGEST
    root = ElementTree.fromstring(picture)
    first = bytes.fromhex(facts["first"])
    mode, fact = drawn_mode(facts)
    check_harmless(root)
    groups = classed(root, "symbol")
    equal("symbols", len(groups), drawn_count(mode, fact))
    equal("cells", len(classed(root, "cell")), len(groups))
    for at, group in enumerate(groups):
        check_symbol(group, at, mode, fact, first)
    check_rows(root, mode, fact, len(groups) + (fact["number"] == RUNOUT))
    notes = [(note.find(SVG + "text").text, int(re.match(r"M(\d+) ", note.find(SVG + "path").get("d"))[1])) for note in classed(root, "note")]
    check_worst(root, groups, fact, mode, notes)
    check_end(root, groups, mode, fact, notes, len(first))
    check_parts(root, mode, fact, len(groups))
    check_words(root, facts, mode, fact, first, len(groups))
    check_layout(root)
    return fact["number"]


def main():
    came = {}
    while line := sys.stdin.buffer.readline():
        facts = json.loads(line)
        picture = sys.stdin.buffer.read(facts["picture"])
        try:
            number = check(facts, picture)
        except Exception as wrong:
            sys.exit(f"picture {sum(came.values())}: {type(wrong).__name__}: {wrong}")
        came[number] = came.get(number, 0) + 1
    equal("pictures", sum(came.values()), int(sys.argv[1]))
    print(f"pictures: {sum(came.values())}, by the number that ended the reading: {dict(sorted(came.items()))}")


main()
