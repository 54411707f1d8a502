#!/usr/bin/env bash
# Measures bytes a second over sockets of the system in pieces of one size, beside a C program that does the same.
set -eu
cd "$(dirname "${BASH_SOURCE[0]}")"
exec python3 loopback.py
