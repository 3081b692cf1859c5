# What `reencd demo` prints, for small volumes and for the largest one, compared with what Python says that
# its clients write; at each run the same; and the words that it refuses.
. "$(dirname "$0")/common.sh"
needs python3
cd "$room" || exit 1

# what is to be printed: SEED BLOCKS WORKERS
wanted() {
    PYTHONPATH=$here/.. python3 -c "
import sys
from oracle.machine.demo import text
sys.stdout.write(text(*map(int, sys.argv[1:])))" "$@"
}

# The demonstration of SEED BLOCKS WORKERS prints what is wanted.
shows() {
    "$reencd" demo --seed "$1" --blocks "$2" --workers "$3" >out 2>err </dev/null
    expect "demo --seed $1 --blocks $2 --workers $3" "$?" 0
    wanted "$@" >wanted
    cmp -s out wanted || fail "$(diff wanted out)"
}

# These words are a faulty command line.
refuses() {
    "$reencd" demo "$@" >out 2>err </dev/null
    expect "demo $*" "$? $(cat out)" "1 fault 1 Usage"
}

shows 5 64 4
shows 0 1 3
shows 255 1 1
shows 1000000007 257 16
for _ in 1 2; do
    shows 18446744073709551615 16384 16
done
refuses --seed 5 --blocks 16385 --workers 4
refuses --seed 5 --blocks 0 --workers 4
refuses --seed 5 --blocks 64 --workers 0
refuses --seed 5 --blocks 64 --workers 17
refuses --seed 18446744073709551616 --blocks 64 --workers 4
refuses --seed -1 --blocks 64 --workers 4
refuses --blocks 64 --workers 4
refuses --seed 5 --blocks 64 --workers 4 disk.img
