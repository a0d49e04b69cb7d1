"""Trufolmesca's calls for Python: numpy arrays in, dataclasses out, over the shared object.

    import trufolmesca
    try:
        answer = trufolmesca.refine_corners_marking(grey, modules, rough)
    except trufolmesca.Refused as refusal:
        print(refusal.number, refusal.word)
    else:
        print(answer.corners, answer.marks.sheet.sum())

The calls are those of trufolmesca.h, under their names there; those whose names end in `_with` are
made where `settings` are given. One that gives no answer raises Refused, with the number and its
word. Pixel (0, 0) has its centre at 0, 0. Corners go top left, top right, bottom right, bottom left.

Calling it: a call needs less than 20 KB of stack, takes no memory but for its answer, keeps no state
and is reentrant, so threads may call it at once on arrays of their own, and run at once, since
Python's lock is not held meanwhile. A bool is True or False. The photograph is never written to;
sheet and copy are new arrays. The processor's rounding mode, flush-to-zero and denormals-are-zero
are as a program starts with them: to nearest, off and off.
"""
from .arguments import LARGEST_SIDE
from .card import OLDER_RESULT_CARD_SIZE, RESULT_CARD_SIZE, narrow_result_card, run_card, widen_result_card
from .geometry import (Line, fit_line_tls_weighted, intersect_lines, inverse, map_point,
                       quad_to_quad, scaled, sqrt, square_to_quad, then)
from .library import LibraryMissing, archive_sha256, library_path, load_library
from .numbers import WORDS, Number, word_of
from .photograph import (Border, Camera, EdgePoint, Fisheye, Intrinsics, Lens, localize_edge_point,
                         localize_edge_point_mapped, rectified_to_source, sample_bilinear)
from .refinement import (Answer, Edge, Marked, refine_corners, refine_corners_mapped,
                         refine_corners_mapped_marking, refine_corners_marking)
from .refusal import Marks, Refused
from .scan import smooth_over, smooth_to
from .settings import Settings

__version__ = "0.1.0"

__all__ = [
    "Answer", "Border", "Camera", "Edge", "EdgePoint", "Fisheye", "Intrinsics", "LARGEST_SIDE", "Lens", "LibraryMissing", "Line",
    "Marked", "Marks", "Number", "OLDER_RESULT_CARD_SIZE", "RESULT_CARD_SIZE", "Refused", "Settings", "WORDS", "archive_sha256",
    "fit_line_tls_weighted", "intersect_lines", "inverse", "library_path", "load_library", "localize_edge_point",
    "localize_edge_point_mapped", "map_point", "narrow_result_card", "quad_to_quad", "rectified_to_source", "refine_corners",
    "refine_corners_mapped", "refine_corners_mapped_marking", "refine_corners_marking", "run_card", "sample_bilinear", "scaled",
    "smooth_over", "smooth_to", "sqrt", "square_to_quad", "then", "widen_result_card", "word_of",
]
