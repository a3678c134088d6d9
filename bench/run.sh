#!/usr/bin/env bash
# Measures the built programs beside their peers, and writes the tables and plots of docs/BENCHMARKS.md: run.sh [ROWS].
exec python3 "$(dirname "$0")/report.py" "$@"
