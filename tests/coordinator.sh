#!/bin/sh
# Builds and runs the example of a coordinator in C, and holds what it says against tests/coordinator.expected, which was worked out by hand.
#
# Job 0 waits for jobs 1 and 2, both wait for job 3, job 3 waits for job 0; job 4 waits for nobody. An operation weighs 2, a tick of age 1, so that
# a cost is 2 x operations + age. Each night's costs, job by job, and what follows:
#
#   Monday     2x2 + 16 = 20, 2x1 + 0 = 2, 2x1 + 1 = 3, 2x3 + 3 = 9, 2x1 + 10 = 12. Jobs 1 and 2 cost 5 together, less than job 3 and less than job 0 (case F).
#   Tuesday    20, 2, 3, 2x1 + 3 = 5, 12. Job 3 costs 5 as well as jobs 1 and 2 do. With job 3 aborted no job of the rings still reaches job 0;
#              with jobs 1 and 2 aborted job 3 does. So job 3 goes (case G).
#   Wednesday  the present tick is 0. Job 2 was issued at 2^32 - 1, 1 tick ago, job 3 at 2^32 - 5, 5 ticks ago: 2x2 + 0 = 4, 2x1 + 0 = 2, 2x1 + 1 = 3,
#              2x2 + 5 = 9, 2. Job 0 costs 4, less than 5 (case H). Whoever takes an age as 0 where the present tick is the smaller number has 4 for job 3
#              and aborts it; whoever subtracts in 64 bits has costs above 2^42, and the call is refused.
#   Thursday   job 4 has timed out: nobody holds pool 3, so it waits for nobody and is on no ring, whatever the others cost. Job 0 was issued at
#              2237483649 = 90000000 - (2^31 - 1) + 2^32: its age is 2^31 - 1, which is taken.
#   Friday     the costs of Monday and an allowance of 1 round. The round goes through jobs 1 and 3 and pushes 2; the way through jobs 2 and 3 is left (case K).
#   Saturday   there is no job 300: refusal 6.
#   Sunday     job 2 was issued at 2497483643 = 349999995 + 2^31, so its age in 32 bits is 2^32 - 2^31 = 2^31: the clock went back. Jobs 0 and 1 have ages
#              11 and 5, so job 2 is the first of which that is so.
#
# The cases are those of document 01, the agreed scope.
set -eu
CDPATH= cd -- "$(dirname -- "$0")/.."
folder=$(mktemp -d)
trap 'rm -rf "$folder"' EXIT
trap 'exit 1' HUP INT TERM
sh tests/link.sh "$folder/coordinator" examples/coordinator.c
"$folder/coordinator" > "$folder/said"
if ! diff tests/coordinator.expected "$folder/said"; then
    echo "the coordinator does not say what was worked out by hand" >&2
    exit 1
fi
echo "coordinator: all well"
