# shellcheck shell=bash
# Texts of a server and of a caller that a terminal would act on: escaped in each line.
look_for_sanitizers
test_build terminal "${sanitized[@]}"
fake odd_text
test_run terminal fails
fake good
test_run terminal answers
