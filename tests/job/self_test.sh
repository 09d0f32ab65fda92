#!/bin/bash
# Tests what the tests of jobs say of lanes: linked with the stand-in (stand_in.rs, the reference model behind the interface
# of `order_job`) they must find no difference, and with each of its faults they must find one, by the hand-worked jobs and
# by those that are beside the model.
set -euo pipefail
cd "$(dirname "$0")/../.."

fail() { echo "tests/job/self_test.sh: $*" >&2; exit 1; }
work=target/job
library=$work/stand-in/libhost.so
mkdir -p $work/stand-in
rustc --edition 2021 -O -D warnings --crate-type cdylib --crate-name host -o $library tests/job/stand_in.rs
library=$(realpath $library)
path=-Wl,-rpath,$(dirname "$library")
rustc --edition 2021 -O -D warnings -C link-arg="$library" -C link-arg="$path" -o $work/stand-in/job tests/job/main.rs
gcc -std=c11 -Wall -Wextra -Werror -O2 -Ihosts tests/job/host.c "$library" "$path" -o $work/stand-in/host
# The stand-in as the program: a job, answered as the program answers it.
cat >$work/stand-in/order.c <<'C'
#include <stdint.h>
#include <stdio.h>
#include "order.h"
static uint8_t job[65537], listing[65536];
int main(void) {
    size_t length = fread(job, 1, sizeof job, stdin);
    uint64_t returned = order_job(job, length, listing, sizeof listing);
    if (ORDER_CODE(returned) != 0)
        printf("status=%u\nline=%u\n", (unsigned)ORDER_CODE(returned), (unsigned)(returned / 64));
    else
        fwrite(listing, 1, ORDER_LENGTH(returned), stdout);
    return 0;
}
C
gcc -std=c11 -Wall -Wextra -Werror -O2 -Ihosts $work/stand-in/order.c "$library" "$path" -o $work/stand-in/order

# What is run: by name, worked out by hand or beside the model.
declare -A commands=(
  [edges]="$work/stand-in/job edges"
  [random]="$work/stand-in/job jobs 1 1000"
  [pairs]="$work/stand-in/job lanes 1 1000"
  [worked]="python3 tests/reference/check.py jobs $work/stand-in/order"
  [host]="python3 tests/reference/check.py host $work/stand-in/host"
)
for name in "${!commands[@]}"; do
  ${commands[$name]} || fail "$name: a difference without a fault"
done

faults=0
for fault in lane-line-dropped lane-not-listed lane-0-not-listed lane-lost lane-lost-in-waiting lanes-order \
  255-refused 256-accepted 8-bits-of-a-lane lane-with-a-leading-zero \
  set-after-lane lane-between-in-and-out lane-in-the-head lane-twice lane-before-final \
  18-on-the-{lane,in}-line 15-on-the-lane-line 18-before-a-malformed-out; do
  noticed=
  for name in "${!commands[@]}"; do
    STAND_IN_FAULT=$fault ${commands[$name]} >$work/fault.out 2>&1 && continue
    grep -q 'a difference\|  expected ' $work/fault.out || { cat $work/fault.out >&2; fail "$fault: a failure of another kind: $name"; }
    noticed+=" $name"
  done
  [[ $noticed == *worked* ]] || fail "$fault: not noticed by the hand-worked jobs, but by:$noticed"
  [[ $noticed =~ edges|random|pairs ]] || fail "$fault: not noticed beside the model"
  echo "fault $fault: noticed by$noticed"
  faults=$((faults + 1))
done
echo "job: $faults faults of the stand-in, each noticed by hand-worked jobs and beside the model"
