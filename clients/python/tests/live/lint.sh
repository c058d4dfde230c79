# shellcheck shell=bash
# What linters say of the package: nothing.
cd "$top/clients/python" || return
strictly=(mypy --strict --cache-dir "$work/mypy")
linter_says 'mypy finds nothing in the package' mypy ' 1\.0\.' mypy "${strictly[@]}" metsuwan
linter_says 'mypy finds nothing beside it' mypy ' 1\.0\.' mypy "${strictly[@]}" call.py life.py output.py rotate.py tests
linter_says 'pyflakes finds nothing' pyflakes3 '^2\.5\.' pyflakes3 pyflakes3 .
linter_says 'pycodestyle finds nothing' pycodestyle '^2\.10\.' pycodestyle pycodestyle --max-line-length=100 .
