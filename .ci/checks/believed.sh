#!/usr/bin/env bash
# docs/BELIEVED.md lists, in slices, the definitions that the contracts of the two top calls rest on.
exec python3 -B check/believed.py
