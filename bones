#!/usr/bin/env bash
# The program bones: an input text on standard input, the result text on standard output. It is proved and built first where it is missing or out of date.
set -eu
cd "$(dirname "$0")"
. tests/start.sh
start bones
