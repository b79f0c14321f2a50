#!/bin/sh
# Advisories of the products that the machines have: sh products.sh --machines FILE [--records FILE] [FILE..] > page.
# cpe_recipes/products.py says how.
command -v python3 > /dev/null || { echo "$0: there is no python3" >&2; exit 2; }
exec python3 -B "$(dirname -- "$0")/run.py" products "$@"
