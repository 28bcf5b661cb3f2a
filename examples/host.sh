#!/bin/sh
# Builds examples/host.c over the proved archive, and runs it.
set -eu
cd "$(dirname "$0")/.."
. tools/kit.sh
kit_archive
kit_build examples/host.c target/c/host
target/c/host
