# Certificates of every kind through `check`, and those that sessions write; read by tests/run.
# shellcheck shell=sh disable=SC2154

try_certificates() {
    python3 tests/certificates.py "$program" "$late" >"$room/verdicts" 2>"$room/complaints" ||
        note_failure certificates.py "$(tail -n 1 "$room/complaints")"
    take_verdicts
}
