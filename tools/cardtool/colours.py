"""A colour for each cluster, by its node's number."""
import colorsys

LINE, INK, GRID, OVER, UNKNOWN = '#667', '#1b1b26', '#cfe0ee', '#c4161c', '#f09a2c'
TURN = 137.508  # degrees: no two of the first hues fall together


def of_node(n):
    """The colour of a node's cluster, and a darker one for its amounts. Node 0 is orange."""
    if n is None:
        return UNKNOWN, '#b25a00'
    hue = (20 + (14 + TURN * n) % 360 * 320 / 360) / 360  # clear of the red of overgrown edges
    light = (0.55, 0.43, 0.66)[n // 7 % 3]
    return shade(hue, light, 0.68), shade(hue, 0.28, 0.80)


def shade(hue, light, full):
    r, g, b = colorsys.hls_to_rgb(hue, light, full)
    return '#%02x%02x%02x' % (round(255 * r), round(255 * g), round(255 * b))
