"""What the program does so far. This is the one place that changes on the day it runs every plan.

While EVERY_PLAN is false the program runs gathers without an order over scans, by the workers of gathering.py, and takes the
one word `drop`. It answers any other sound plan with status 15, and the line of status 1 tells no place. Once it is true, each
plan runs in slices, and all words of `sim` are taken.
"""
from __future__ import annotations

EVERY_PLAN = False
