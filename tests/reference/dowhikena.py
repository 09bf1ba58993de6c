"""Reference model of the frames on a reel, written from the definitions in docs/FORMATS.md.

It shares no method with the proved code: products are taken bit by bit, frames come from Gaussian elimination on the
check equations, and reading tries every record or every choice of wrong strips and silent square.

    array    the m*n symbols of a frame, strip by strip
    showing  n strips, each GONE or a list of m squares, each DOUBTFUL or a clear code
    number   0 for an accepted call, otherwise the number of the refusal

This file gathers the parts, so that programs import from one place.
"""

from ref_field import *
from ref_frame import *
from ref_reading import *
from ref_medium import *
from ref_reel import *
from ref_script import *
from ref_text import *
