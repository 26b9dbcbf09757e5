#!/bin/bash
# Shows that `irpx run` and `irp_orders` make the steps of scripts of form 4 whose conditions hold, and pass over the others:
# as the second reading's model does, of scripts by chance and of the examples in examples/right (conditions.py). Where a
# program refuses form 4, it isn't asked, and the model counts the examples' orders.
#
# IRP_ORDERS and IRPX name the programs; without them, they are those that bin/irp_orders and bin/irpx run. COUNT is how many
# scripts are made by chance and SEED their seed, RUNS how often each example is run.
# Each failure has a line of its own. Ends with status 0 where all was as expected, else with 1.
set -u
cd "$(dirname "$(readlink -f "$0")")" || exit 1
irpx=${IRPX:-$(../bin/program irpx quick)} || exit 1
if ! python3 -c 'import sys; sys.exit(sys.version_info < (3, 9))' 2>/dev/null; then
    echo 'passed over, for want of Python 3.9: steps on conditions'
    exit 0
fi
irp_orders=${IRP_ORDERS:-$(../bin/program irp_orders quick)} || exit 1
case $irp_orders in *.unproved) count=${COUNT:-40} runs=${RUNS:-5} ;; *) count=${COUNT:-1000} runs=${RUNS:-40} ;; esac
exec python3 -B conditions.py "$irp_orders" "$irpx" "$count" "$runs" "${SEED:-1}"
