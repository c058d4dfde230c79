# shellcheck shell=bash
# A thread with a stack of 96 KiB makes calls, and nothing of what it signed is left there.
test_build stack -O2 -Wl,-z,lazy
for row in signs:batches batch:batches lists:many_objects deep:levels registers:good; do
    fake "${row#*:}"
    test_run stack "${row%:*}"
done
