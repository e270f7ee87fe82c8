#!/usr/bin/env bash
# The tests of the page and its check. A part that cannot be run here says so in a line of its own and does not fail.
#
# AUDIT names a command that takes a sheet and a slip and writes the program's line, where it is not the auditor that the proofs
# allow: what the check says is held against it too. BROWSER names a Chromium, where it is not on the PATH under a usual name.
set -euo pipefail
cd "$(dirname "$0")"
not_run() { echo "page: not run: $1, since $2"; }

if ! command -v node >/dev/null || ! node -e 'process.exit(parseInt(process.versions.node) < 18 ? 1 : 0)'; then
    not_run "the tests of the page" "there is no node of version 18 or later on the PATH"
    exit 0
fi
with=()
if command -v cargo >/dev/null; then
    rust=${CARGO_TARGET_DIR:-../rust/target}/debug
    (cd ../rust && cargo build --offline --quiet -p paper -p differential --bin paper --bin reading)
    with+=(--reading "$rust/reading")
    # Slips of the archive's own, where it was built.
    if [ -f "${BRISTLEFROST_LIB:-../target/staticlib}/libface.a" ]; then
        (cd ../rust && cargo build --offline --quiet -p bristlefrost)
        with+=(--write "$rust/slip write")
    else
        not_run "the check on slips of the archive" "there is no libface.a"
    fi
else
    not_run "the check against a plain reading" "there is no cargo on the PATH"
fi
if [ -z "${AUDIT:-}" ] && [ -x ../target/bin/auditor ]; then AUDIT=../target/bin/auditor; fi
if [ -n "${AUDIT:-}" ]; then with+=(--audit "$AUDIT"); else not_run "the check against the program's audit" "there is no ../target/bin/auditor"; fi
node test.mjs "${with[@]}"

for browser in "${BROWSER:-}" chromium chromium-browser google-chrome; do
    if [ -n "$browser" ] && command -v "$browser" >/dev/null; then break; fi
    browser=
done
if [ -z "$browser" ]; then
    not_run "the page in a browser" "there is no chromium on the PATH"
elif ! command -v cargo >/dev/null; then
    not_run "the page in a browser" "there is no cargo on the PATH to build paper"
else
    node browser.mjs --paper "$rust/paper" --browser "$browser"
fi
