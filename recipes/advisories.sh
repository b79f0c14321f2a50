#!/bin/sh
# From NVD's API 2.0 to advisories: the JSON of /rest/json/cves/2.0 (vulnerabilities) to records `statement`: sh
# advisories.sh [--ranges FILE] [--details FILE] [FILE..] > records. cpe_recipes/advisories.py says how. FILE of
# --ranges gets the ranges of versions, which decide.py reads, and FILE of --details scores and titles by id.
command -v python3 > /dev/null || { echo "$0: there is no python3" >&2; exit 2; }
exec python3 -B "$(dirname -- "$0")/run.py" advisories "$@"
