#!/usr/bin/env bash
# Of lines as '12: 1 uses 0' shows the first and last of each stretch in which nothing changes but the clock.
exec awk '
  function flush() { if (n > 1) { if (n > 2) print "   ..."; print last } n = 0 }
  { state = $0; if (match($0, /^[0-9]+: /)) state = substr($0, RLENGTH + 1) }
  /^[0-9]+: / && n && state == held { last = $0; n++; next }
  { flush(); print; held = ""; if ($0 ~ /^[0-9]+: /) { held = state; last = $0; n = 1 } }
  END { flush() }'
