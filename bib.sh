#!/usr/bin/env bash
# Runs the program `bib`: bib.sh keys < FILE. See scripts/run.sh, which also runs `bibkit`.
exec bash "$(dirname "$0")/scripts/run.sh" bib "$@"
