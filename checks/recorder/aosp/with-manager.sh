#!/bin/sh
# Starts a servicemanager, and runs a command beside it: with-manager COMMAND..
servicemanager &
sleep 0.5
timeout 300 "$@"
status=$?
sleep 0.3
exit $status
