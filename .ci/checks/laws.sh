#!/usr/bin/env bash
# Each law stands on a page for readers, or in docs/SERVICES.md, which tells what cites it.
exec python3 -B check/laws.py
