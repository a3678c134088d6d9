#!/usr/bin/env bash
# Installs Debian's PostgreSQL for tests/sql.py, where none is installed, apt is there and it runs as root. No server is started:
# sql.py starts one of its own. Where it cannot be installed, sql.py says that it is skipped.
set -u
compgen -G '/usr/lib/postgresql/*/bin/initdb' > /dev/null && exit 0
command -v apt-get > /dev/null && [ "$(id -u)" = 0 ] || exit 0
config=/etc/postgresql-common/createcluster.conf
if [ ! -e "$config" ]; then
  mkdir -p "${config%/*}" && echo 'create_main_cluster = false' > "$config"
fi
export DEBIAN_FRONTEND=noninteractive
apt-get update && apt-get install -y --no-install-recommends postgresql
exit 0
