#!/usr/bin/env bash
# docs/TESTED.md names each must-fail edit once, and each crate of tests.
exec python3 -B check/tested.py
