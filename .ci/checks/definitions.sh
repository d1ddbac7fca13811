#!/usr/bin/env bash
# docs/DEFINITIONS.md: each name stands in the file that the page gives for it, and the contract of each function that it names cites the definition.
exec python3 -B check/definitions.py
