"""A picture as the text of an SVG file: boxes, lines and words on a light ground that is drawn, so
that it reads on a dark page too. The same calls give the same text on every machine."""

import html

# Colours that stay apart for the colour-blind (Okabe and Ito), each with a light one for areas.
INK, SOFT, LINE, PALE, GROUND = "#1b1b1b", "#555555", "#b8b8b8", "#f1f1f1", "#ffffff"
BLUE, LIGHT_BLUE = "#0072b2", "#d3e8f6"
ORANGE, LIGHT_ORANGE = "#9a5b00", "#fbe5bd"
RED = "#b8480a"


def number(value):
    """A coordinate, with one decimal at most."""
    said = f"{value:.1f}".removesuffix(".0")
    return "0" if said == "-0" else said


def width_of(text, size, mono=False, bold=False):
    """About how wide a text is; rather too much than too little."""
    return len(text) * size * (0.61 if mono else 0.68 if bold else 0.6)


def wrapped(text, size, width, bold=False):
    """A text in lines that are no wider than this, where its words allow that."""
    lines = []
    for word in text.split():
        longer = f"{lines[-1]} {word}" if lines else word
        if lines and width_of(longer, size, bold=bold) <= width:
            lines[-1] = longer
        else:
            lines.append(word)
    return lines


class Picture:
    """A picture of a width; its height is told at the end, when it is known."""

    def __init__(self, width, title, said):
        self.width, self.title, self.said, self.parts = width, title, said, []

    def put(self, name, content=None, **attributes):
        """An element; a number is a coordinate, and `_` in the name of an attribute is `-`."""
        said = [name]
        for key, value in attributes.items():
            if value is not None:
                text = value if isinstance(value, str) else number(value)
                said.append(f'{key.replace("_", "-").strip("-")}="{html.escape(text)}"')
        end = "/>" if content is None else f">{html.escape(content, quote=False)}</{name}>"
        self.parts.append(f'<{" ".join(said)}{end}')

    def box(self, x, y, width, height, fill=GROUND, stroke=LINE, **more):
        self.put("rect", x=x, y=y, width=width, height=height, fill=fill, stroke=stroke, **more)

    def line(self, x1, y1, x2, y2, stroke=LINE, **more):
        self.put("line", x1=x1, y1=y1, x2=x2, y2=y2, stroke=stroke, **more)

    def words(self, x, y, text, size=13, fill=INK, mono=False, bold=False, anchor=None, **more):
        family = "monospace" if mono else None
        weight = "bold" if bold else None
        self.put("text", text, x=x, y=y, font_size=size, fill=fill, font_family=family,
                 font_weight=weight, text_anchor=anchor, **more)

    def lines(self, x, y, texts, size=13, step=None, **more):
        """Lines of words, the first at y."""
        for place, text in enumerate(texts):
            self.words(x, y + place * (step or size + 4), text, size, **more)

    def text(self, height):
        """The file's text."""
        wide, high = number(self.width), number(height)
        head = [
            f'<svg xmlns="http://www.w3.org/2000/svg" width="{wide}" height="{high}"'
            f' viewBox="0 0 {wide} {high}" font-family="sans-serif" role="img"'
            ' aria-labelledby="title said">',
            f'<title id="title">{html.escape(self.title, quote=False)}</title>',
            f'<desc id="said">{html.escape(self.said, quote=False)}</desc>',
            f'<rect width="{wide}" height="{high}" fill="{GROUND}"/>',
        ]
        return "\n".join([*head, *self.parts, "</svg>", ""])
