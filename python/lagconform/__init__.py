"""Tests any device's LACP and Marker protocol (IEEE 802.1AX-2014, 6.2 to 6.5) from the far end of one to four cables, by frames alone.

The right partner is a proved system of `niwhopera`; a test makes one thing of it wrong. `docs/CONFORM.md` tells how to run it.
"""
