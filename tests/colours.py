"""Whether the colours of a picture can be told apart: in grey, and by eyes that lack one kind of
cone, as the matrices of Machado, Oliveira and Fernandes (2009) have it, in CIE's Lab of 1976."""
import re

EYES = {
    "normal": ((1, 0, 0), (0, 1, 0), (0, 0, 1)),
    "protan": ((0.152286, 1.052583, -0.204868), (0.114503, 0.786281, 0.099216), (-0.003882, -0.048116, 1.051998)),
    "deutan": ((0.367322, 0.860646, -0.227968), (0.280085, 0.672501, 0.047413), (-0.011820, 0.042940, 0.968881)),
    "tritan": ((1.255528, -0.076749, -0.178779), (-0.078411, 0.930809, 0.147602), (0.004733, 0.691367, 0.303900)),
}
TO_XYZ = ((0.4339, 0.3762, 0.1899), (0.2126, 0.7152, 0.0722), (0.0177, 0.1095, 0.8728))  # by the white's


def full(colour):
    """#rrggbb or #rgb as six digits."""
    return colour[1:] if len(colour) == 7 else "".join(2 * digit for digit in colour[1:])


def linear(colour):
    """As light, each part from 0 to 1."""
    parts = [int(part, 16) / 255 for part in re.findall("..", full(colour))]
    return [part / 12.92 if part <= 0.04045 else ((part + 0.055) / 1.055) ** 2.4 for part in parts]


def times(matrix, column):
    return [min(1, max(0, sum(a * b for a, b in zip(row, column)))) for row in matrix]


def lab(colour, eye):
    x, y, z = (part ** (1 / 3) if part > 216 / 24389 else (24389 / 27 * part + 16) / 116 for part in times(TO_XYZ, times(EYES[eye], linear(colour))))
    return 116 * y - 16, 500 * (x - y), 200 * (y - z)


def apart(one, other, eye):
    return sum((a - b) ** 2 for a, b in zip(lab(one, eye), lab(other, eye))) ** 0.5


def contrast(one, other):
    """As WCAG has it, from 1 to 21."""
    lights = sorted(times(TO_XYZ, linear(colour))[1] + 0.05 for colour in (one, other))
    return lights[1] / lights[0]


def through(colour, page, opacity):
    """A colour as it comes through on a page."""
    mixed = [opacity * int(one, 16) + (1 - opacity) * int(other, 16) for one, other in zip(*(re.findall("..", full(name)) for name in (colour, page)))]
    return "#" + "".join(f"{round(part):02x}" for part in mixed)


def check_shades(shades, lost, least, in_grey):
    for one, other in zip(shades, shades[1:]):
        assert contrast(one, other) > in_grey, ("in grey", one, other, contrast(one, other))
        assert all(apart(one, other, eye) > least for eye in EYES), (one, other, [apart(one, other, eye) for eye in EYES])
    assert all(apart(shade, lost, eye) > least for shade in shades for eye in EYES), lost


def check_colours(style):
    """On a light page and on a dark one: neighbouring shades, what is lost, and text, all of it as
    it is read and as it is faint."""
    cells, text = (float(found) for found in re.search(r"\.faint path\{opacity:([.\d]+)\}\.faint text,[^{]*\{opacity:([.\d]+)\}", style).groups())
    light, dark = style.split("@media screen and (prefers-color-scheme:dark){")
    fills = {}
    for rules in (light, dark.split("@page")[0]):
        for names, fill in re.findall(r"([^{}]*)\{[^{}]*?fill:(#\w+)", rules):
            fills.update((name.strip().lstrip("."), fill) for name in names.split(","))
        shades, page = [fills[f"d{k}"] for k in range(7)], fills["page"]
        check_shades(shades, fills["lost"], 14, 1.29)
        check_shades([through(shade, page, cells) for shade in shades], through(fills["lost"], page, cells), 8, 1.15)
        assert contrast(fills["text"], page) > 10 and contrast(through(fills["text"], page, text), page) > 4.5
        assert contrast(fills["number"], page) > 5
    assert fills["page"] == "#12161b", "the dark page was not looked at"
