#!/bin/sh
# Runs a server of a mesh in a container: `entry.sh NAME [OPTION..]`. TERM and INT have it drain, and a further one ends that at once.
# LEAST_INC is for the first start alone: it is the option --least-inc.
set -u
control=/run/nats_mesh/control
nats_mesh node "$@" --mesh /etc/nats_mesh/mesh.toml --state /var/lib/nats_mesh --control "$control" \
  ${LEAST_INC:+--least-inc "$LEAST_INC"} &
server=$!

# Before the server takes words it is ended.
is_told=
trap 'is_told=yes; nats_mesh drain "$control" || kill "$server"' TERM INT

# A signal ends a wait early: then the server is waited for again.
while :; do
  is_told=
  wait "$server"
  status=$?
  [ -n "$is_told" ] || exit "$status"
done
