# shellcheck shell=bash
# Lists of an answer, of 20,000 items too: each item once, in one pass, and what a path has for the library.
look_for_sanitizers
test_build lists "${sanitized[@]}"
fake many_objects
test_run lists
