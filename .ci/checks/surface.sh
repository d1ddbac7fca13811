#!/usr/bin/env bash
# Each crate offers, by name, what check/surface.txt says that it does.
exec python3 -B check/surface.py
