#!/usr/bin/env bash
# browser.sh PROGRAM [DOCUMENTS [SEED]]: browser.py, where Debian's Chromium is installed (apt-get install chromium); else it says that it is passed over.
if ! command -v chromium > /dev/null; then
  echo "passed over: there is no chromium"
  exit 0
fi
exec "$(dirname "$0")/browser.py" "$@"
