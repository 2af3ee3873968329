"""The lines that end a report: what runs a program needs no more of reports than this."""

from __future__ import annotations

# Their first words, in order.
FINAL = ("memory", "register", "tokens", "counters", "host", "cube", "state")
