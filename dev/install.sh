#!/usr/bin/env bash
# Installs the Debian packages that checks want and that aren't here: solvers, and what types, tests and editors need. It never fails: what can't be
# installed is said, and the checks that want it are skipped. With --help it only says so.
#
#     dev/install.sh [--help]
set -u
packages=(z3 cvc5 mypy python3-flake8 python3-lark python3-prompt-toolkit python3-hypothesis python3-z3 python3-pylsp-jsonrpc python3-matplotlib neovim)
seconds=600

if [ "${1-}" = --help ]; then
  sed -n '2,5s/^# \{0,1\}//p' "$0"
  exit 0
fi

is_there() { [ "$(dpkg-query -W -f='${db:Status-Status}' "$1" 2>/dev/null)" = installed ]; }

missing=()
if command -v dpkg-query >/dev/null; then
  for package in "${packages[@]}"; do is_there "$package" || missing+=("$package"); done
fi
if ! command -v apt-get >/dev/null || ! command -v dpkg-query >/dev/null; then
  echo "install.sh: there is no apt-get, so nothing is installed"
elif [ "${#missing[@]}" -eq 0 ]; then
  echo "install.sh: all is there: ${packages[*]}"
elif [ "$(id -u)" -ne 0 ]; then
  echo "install.sh: only root may install: ${missing[*]}"
else
  export DEBIAN_FRONTEND=noninteractive
  apt="timeout $seconds apt-get -q -y -o DPkg::Lock::Timeout=120 -o Acquire::Retries=2"
  $apt update
  # all at once, or else, where one isn't known here, one by one
  $apt install --no-install-recommends "${missing[@]}" || for package in "${missing[@]}"; do $apt install --no-install-recommends "$package"; done
  for package in "${missing[@]}"; do is_there "$package" || echo "install.sh: $package could not be installed"; done
fi </dev/null
exit 0
