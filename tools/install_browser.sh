#!/usr/bin/env bash
# Installs the browser in which tools/tests look at pages: Debian's chromium, and a font, since a system
# without a screen may have none. Wants the rights to install packages. Does nothing where it is there.
set -eu

if command -v chromium >/dev/null; then
    exit 0
fi

apt-get update
DEBIAN_FRONTEND=noninteractive apt-get install --yes --no-install-recommends chromium fonts-dejavu-core
