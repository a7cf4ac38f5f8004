"""The picture as an SVG file's lines."""

from .looks import HEIGHT, INK, PAPER, REFUSED, WIDTH


def show(number):
    """A pixel, to a tenth."""
    return "%.1f" % number


class Picture:
    """SVG elements, one a line."""

    def __init__(self):
        self.lines = [
            '<svg xmlns="http://www.w3.org/2000/svg" width="%d" height="%d" '
            'viewBox="0 0 %d %d" font-family="Helvetica, Arial, sans-serif" font-size="13" fill="%s">'
            % (WIDTH, HEIGHT, WIDTH, HEIGHT, INK),
            '<rect width="%d" height="%d" fill="%s"/>' % (WIDTH, HEIGHT, PAPER)]

    def add(self, tag, words=None, **values):
        """An element; `class_` is class, _ is - in a name."""
        inside = "".join(' %s="%s"' % (
            name.rstrip("_").replace("_", "-"), show(value) if isinstance(value, float) else value)
            for name, value in values.items())
        end = "/>" if words is None else ">%s</%s>" % (words, tag)
        self.lines.append("<%s%s%s" % (tag, inside, end))

    def text(self, x, y, words, anchor="start", **values):
        self.add("text", words, x=float(x), y=float(y), text_anchor=anchor, **values)

    def line(self, x1, y1, x2, y2, stroke, width=1, **values):
        self.add("line", x1=float(x1), y1=float(y1), x2=float(x2), y2=float(y2), stroke=stroke,
                 stroke_width=width, **values)

    def path(self, points, stroke, **values):
        self.add("polyline", points=" ".join("%s,%s" % (show(x), show(y)) for x, y in points),
                 fill="none", stroke=stroke, stroke_width=2, stroke_linejoin="round", **values)

    def cross(self, x, y, **values):
        """A refused sample's mark."""
        self.add("path", d="M%s,%s l8,8 m0,-8 l-8,8" % (show(x - 4), show(y - 4)),
                 stroke=REFUSED, stroke_width=2, fill="none", **values)

    def end(self):
        return "\n".join(self.lines + ["</svg>"]) + "\n"
