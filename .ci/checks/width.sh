#!/usr/bin/env bash
# Lines of documents wrap at one width.
exec python3 -B check/width.py
