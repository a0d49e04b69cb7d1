"""The archive for C: what it needs from outside."""
from __future__ import annotations

from installing import said


def test_it_needs_two_functions_of_the_c_library_alone(archive):
    undefined = [line.split()[-1] for line in said("nm", "-u", archive).splitlines() if " U " in line]
    assert sorted(undefined) == ["memcpy", "memset"]
