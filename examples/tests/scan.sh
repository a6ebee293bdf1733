#!/bin/sh
# A test of a scanner as a shell script: `scan.sh CHANNELS SERVICE ..` runs dvbv5-scan, and each of these services, by its
# service_id, must be in what it has found. It runs below `served`. The scanner writes into a file that has no name any more, so
# nothing is left of it however this ends.
set -eu
channels=$1
shift
file=$(mktemp)
exec 3<>"$file"
rm "$file"
dvbv5-scan -o /dev/fd/3 "$channels"
found=$(sed -n 's/.*SERVICE_ID = //p' /dev/fd/3 | xargs)
for service in "$@"; do
    case " $found " in
    *" $service "*) ;;
    *) echo "no service $service; found: $found" >&2 && exit 1 ;;
    esac
done
