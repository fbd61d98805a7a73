"""What the checks of a picture share: elements by their class, and where they stand."""
SVG = "{http://www.w3.org/2000/svg}"


def equal(what, got, want):
    if got != want:
        raise AssertionError(f"{what}: {got!r} and not {want!r}")


def classed(parent, kind):
    return [element for element in parent.iter() if kind in element.get("class", "").split()]


def texts(parent, kind):
    return [element.text or "" for element in classed(parent, kind)]


def square(element):
    return [int(element.get(side)) for side in ("x", "y", "width", "height")]


def middle(element):
    return int(element.get("x")) + int(element.get("width")) // 2
