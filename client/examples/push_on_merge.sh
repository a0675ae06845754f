#!/bin/sh
# A step for a build server: on each merge it brings the repository's catalog-info.yaml files into the catalogue.
# WIRGATSU_SERVER has the catalogue's address, and WIRGATSU_TOKEN a token that may write, where the catalogue wants one.
# WIRGATSU is the command, as client/wirgatsu of a clone; without it that of `pip install`.
set -eu
: "${WIRGATSU_SERVER:?the address of the catalogue}"
wirgatsu=${WIRGATSU:-wirgatsu}

# what would be refused ends the step before anything is changed; kinds that the catalogue hasn't are passed over
"$wirgatsu" validate --skip-kind Template "${1:-.}"
"$wirgatsu" push --yes --prune --skip-kind Template "${1:-.}"
