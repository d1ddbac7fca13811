#!/usr/bin/env bash
# No public item of a crate is there for nothing: each is named by a crate above or elsewhere in its own, or it is a law.
exec python3 -B check/unused.py
