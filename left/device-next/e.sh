#!/bin/bash
cd "${TREE:-.}"
c=$1; shift
rt check $c "$@" > /tmp/last.$c 2>&1
cut -c1-${CUT:-700} /tmp/last.$c | grep -v "^library\|proved (unch\|: proved$\|^note: /\|  what is tried\|trial run\|large solution\|^logic /opt\|^$\|^generated" | head -${N:-40}
