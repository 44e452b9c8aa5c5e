#!/bin/sh
# Two pages were counted.
[ "$(cat pages/counts.txt)" -eq 2 ]
