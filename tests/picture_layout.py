"""How a picture is laid out: what its style must not lose, and what must stand beside, over or away
from what. A picture with every number right would mislead without it."""
import re

from colours import contrast
from svg import SVG, classed, equal, square


def numbers(element, form):
    return [int(number) for number in re.match(form, element.find(SVG + "path").get("d")).groups()]


def check_caption(root):
    """Each line of words on its own, each swatch between its neighbours' texts."""
    words, swatches = classed(root, "words"), classed(root, "swatch")
    key = [text for text in words if text.get("y") == "123"]
    others = [text for text in words if text.get("y") != "123"]
    lines = [int(text.get("y")) for text in others]
    assert lines in ([30, 54, 76, 96, 148, 168, 188], [30, 54, 76, 148, 168, 188]), lines
    equal("where lines begin", {text.get("x") for text in others + key[:1]}, {"16"})
    equal("texts of swatches", [int(text.get("x")) for text in key[1:]], [int(swatch.get("x")) + 32 for swatch in swatches])
    for text, swatch in zip(key, swatches):
        assert int(text.get("x")) + 7 * len(text.text) <= int(swatch.get("x")), "a swatch in a text"
    left, top, width, height = square(swatches[-2])
    cross = f"M{left} {top}l{width} {height}m0 {-height}l{-width} {height}"
    equal("the key's cross", [path.get("d") for path in root.findall(SVG + "path")], [cross])


def check_layout(root):
    """Frames over the cells, the bar over the page, notes beside their triangles."""
    order = {element: at for at, element in enumerate(root.iter())}
    check_caption(root)
    for frame in classed(root, "worst") + classed(root, "ended"):
        row = [cell for cell in classed(root, "cell") if sum(square(cell)[1::2]) == sum(square(frame)[1::2]) - 2]
        assert all(order[frame] > order[cell] for cell in row), "a frame under a cell"
    for note in classed(root, "note"):
        (across, down), text = numbers(note, r"M(\d+) (\d+)l"), note.find(SVG + "text")
        side = ["after", across + 9] if (across - 78) * 2 < 1024 else ["before", across - 9]
        equal("beside a triangle", [text.get("class"), int(text.get("x")), int(text.get("y"))], side + [down + 9])
    for margin in classed(root, "margin"):
        equal("the margin", {text.get("x") for text in margin}, {"70"})
    for part in classed(root, "part"):
        (down,) = numbers(part, r"M\d+ (\d+)v")
        equal("over a bracket", {int(text.get("y")) for text in part.findall(SVG + "text")}, {down - 8})
    (page,) = classed(root, "page")
    equal("the page", (page.get("width"), page.get("height")), ("100%", "100%"))
    for bar in classed(root, "bar"):
        assert bar.get("width") == "6" and order[bar] > order[page], "a bar that is not seen"
    for rect in root.iter(SVG + "rect"):
        assert rect is page or int(rect.get("x", 0)) + int(rect.get("width")) <= int(root.get("width")), rect.attrib


def rules(text):
    found = {}
    for names, what in re.findall(r"([^{}]+)\{([^{}]*)\}", text):
        for name in names.split(","):
            found.setdefault(name.strip(), {}).update(one.split(":", 1) for one in what.split(";") if one)
    return found


def check_strokes(light, dark):
    """What is drawn as lines is seen on either page, and hides nothing."""
    for name in (".cross", ".part path", ".missing", ".worst", ".ended"):
        equal(name, light[name]["fill"], "none")
    for name in (".part path", ".missing", ".worst", ".ended"):
        assert contrast(light[name]["stroke"], light[".page"]["fill"]) > 3, name
        assert contrast(dark[name]["stroke"], dark[".page"]["fill"]) > 3, name
    assert contrast(light[".cross"]["stroke"], light[".lost"]["fill"]) > 5, "a cross that is not seen"
    for name in (".worst", ".ended"):
        assert float(light[name]["stroke-width"]) > 2, name
    for name in (".missing", "rect.none"):
        assert "stroke-dasharray" in light[name], name
    for page in (light, dark):
        equal("what has no colour", page["rect.none"]["fill"], page[".page"]["fill"])


def check_style(style):
    light, rest = style.split("@media screen and (prefers-color-scheme:dark){")
    light, dark = rules(light), rules(rest.split("@page")[0])
    check_strokes(light, dark)
    for name, anchor in ((".symbol text", "middle"), (".octet", "middle"), (".name", "middle"), (".margin text", "end"), (".before", "end")):
        equal(name, light[name]["text-anchor"], anchor)
    for name, weight in ((".title", "bold"), (".outcome", "bold"), (".octet", "bold"), (".refused", "normal"), (".faint .value", "normal")):
        equal(name, light[name]["font-weight"], weight)
    equal("blanks of a name", light[".title"]["white-space"], "pre")
    for name in (".faint rect", ".faint path", ".faint text", ".faint .cross"):
        assert float(light[name]["opacity"]) < 0.8, name
    equal("where the pointer rests", (light[".symbol"], light[".worst"]["pointer-events"]), ({"pointer-events": "bounding-box"}, "none"))
    equal("around a dark page", dark["svg"]["background"], dark[".page"]["fill"])
    down, across = (float(number) for number in re.search(r"@page\{size:A4;margin:([\d.]+)mm ([\d.]+)mm\}", style).groups())
    page = (297 - 2 * down) * 1118 / (210 - 2 * across)  # pixels
    assert 15 * 106 - 4 < page <= 15 * 106, ("a page of fifteen rows", page)
    assert style.rstrip().endswith("@media print{svg{width:100%;height:auto}}"), "paper"
