#!/bin/sh
# Says that a check isn't made on this machine, and why. In the gate, which names a file by GATE_SKIPPED, the line is printed again at its end.
# Usage: sh make/skipped.sh WHAT REASON
line="SKIPPED: $1 ($2)"
echo "$line" >&2
if [ -n "$GATE_SKIPPED" ]; then
    echo "$line" >> "$GATE_SKIPPED"
fi
