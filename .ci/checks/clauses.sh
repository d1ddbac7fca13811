#!/usr/bin/env bash
# The clauses of public calls are those that check/clauses.txt lists, so that no change loses one unseen.
exec python3 -B check/clauses.py
