#!/bin/sh
# Answers cases by go-cpe (golang-github-knqyf263-go-cpe-dev in Debian). It needs go.
adapter=go_cpe
. "$(dirname "$0")/go.sh"
