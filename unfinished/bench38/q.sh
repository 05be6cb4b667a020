#!/bin/bash
# stops everything of the helpers for a moment
P=$(ps -eo pid,args | grep -E "rattle|rustc|cargo|clang|llc|valgrind|/work/h/|/dev/shm/prove|\./ab |\./bench|python3|deps/" | grep -v "grep\|q.sh\|bench38" | awk '{print $1}')
kill -STOP $P 2>/dev/null; sleep 0.2
"$@"
kill -CONT $P 2>/dev/null
