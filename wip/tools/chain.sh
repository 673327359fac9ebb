#!/bin/bash
# chain.sh TOP NAME..: libs in this order
export CHAIN=1; top=$1; shift
for n in "$@"; do /work/base/gcheck $top/crates/$n lib; done
