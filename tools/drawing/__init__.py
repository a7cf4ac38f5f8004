"""drawing - makes a picture of a run.  `tools/draw` is the command over it."""

from . import panels
from .looks import LEFT, RIGHT
from .run import Run, Unfit
from .scale import Scale
from .svg import Picture

__all__ = ["Unfit", "draw"]


def draw(data, lines):
    """The picture of a feed and its output lines."""
    run = Run(data, lines)
    times = Scale(run.accepted[0].time, run.end(), LEFT, RIGHT)
    picture = Picture()
    panels.draw_keys(picture, run)
    panels.draw_locations(picture, run, times)
    panels.draw_speeds(picture, run, times)
    panels.draw_blocks(picture, run)
    panels.draw_band(picture, run, times)
    panels.draw_refused(picture, run, times)
    panels.draw_calls(picture, run, times)
    return picture.end()
