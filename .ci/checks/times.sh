#!/usr/bin/env bash
# What the gate takes, by kind of work and crate, and that it stays within its budget.
exec python3 -B .ci/times.py tell "${GATE_TIMES:-/dev/null}"
