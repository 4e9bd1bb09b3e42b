#!/bin/sh
# Refuses memory, one request after another: runs `sledge` with its first request for memory refused, then with its second, and so on until a run
# makes fewer. Each run is to answer as one with ample memory does, or that memory ran out, and to leave no child:
#     bench/hostile/memory.sh
# Three lines are tried: `metis` on two facts, a race of one slot whose child prints a proof, and a race of three slots whose first child names too few
# facts, whose second prints a proof, and whose third sleeps, as many workers as slots, with a limit of half a second: where the second slot is refused memory
# nobody wins, and the third child would sleep on. Prints how many requests each makes, and how often each answer came. It needs `cc`.
set -eu
top=$(cd "$(dirname "$0")/../.." && pwd)
"$top/sledge" gen 1 >/dev/null
program=$top/crates/sledge_cli/out/sledge_cli
work=$(mktemp -d)
trap 'rm -rf "$work"' EXIT
nap=98765.$$
cd "$work"

cat >refuse.c <<'C'
#define _GNU_SOURCE
#include <errno.h>
#include <fcntl.h>
#include <stdatomic.h>
#include <stdlib.h>
#include <unistd.h>

static atomic_long made;
static long refused;
static const char *told;

static __attribute__((constructor)) void begin(void) {
    const char *at = getenv("REFUSED_REQUEST");
    told = getenv("REFUSED");
    unsetenv("LD_PRELOAD");
    atomic_store(&made, 0);
    if (at) refused = atol(at);
}

/* tells by a file that the request came which is refused */
static int is_refused(void) {
    if (atomic_fetch_add(&made, 1) + 1 != refused) return 0;
    int f = told ? open(told, O_CREAT | O_WRONLY, 0600) : -1;
    if (f >= 0) close(f);
    errno = ENOMEM;
    return 1;
}

extern void *__libc_malloc(size_t);
extern void *__libc_calloc(size_t, size_t);
extern void *__libc_realloc(void *, size_t);
extern void *__libc_memalign(size_t, size_t);

void *malloc(size_t n) { return is_refused() ? 0 : __libc_malloc(n); }
void *calloc(size_t m, size_t n) { return is_refused() ? 0 : __libc_calloc(m, n); }
void *realloc(void *p, size_t n) { return is_refused() ? 0 : __libc_realloc(p, n); }
void *aligned_alloc(size_t a, size_t n) { return is_refused() ? 0 : __libc_memalign(a, n); }
void *memalign(size_t a, size_t n) { return is_refused() ? 0 : __libc_memalign(a, n); }
int posix_memalign(void **p, size_t a, size_t n) {
    if (is_refused()) return ENOMEM;
    return (*p = __libc_memalign(a, n)) ? 0 : ENOMEM;
}
C
cc -O1 -shared -fPIC -o refuse.so refuse.c -ldl

cat >one.theory <<'THEORY'
const p : bool; const q : bool; fact f1 : p; fact f2 : ~p | q; goal g : q;
THEORY
# each reads its text first: one that ends before it is fed could not be started
cat >both <<'CHILD'
#!/bin/sh
cat >/dev/null
printf '%% SZS status Theorem\n%% SZS output start Proof\ncnf(c, plain, $false, [f_f1, f_f2]).\n'
printf 'cnf(f_f1, axiom, p). cnf(f_f2, axiom, q).\n%% SZS output end Proof\n'
CHILD
cat >three <<CHILD
#!/bin/sh
if mkdir first 2>/dev/null; then
    cat >/dev/null
    printf '%% SZS status Theorem\n%% SZS output start Proof\ncnf(c, plain, \$false, f_f1).\n%% SZS output end Proof\n'
elif mkdir second 2>/dev/null; then
    sleep 0.05
    exec "$work/both"
else
    exec sleep $nap
fi
CHILD
chmod +x both three

# tries the line behind $1, a name
try() {
    name=$1
    shift
    : >"$name.answers"
    request=0
    while :; do
        request=$((request + 1))
        rm -rf first second refused
        status=0
        LD_PRELOAD="$work/refuse.so" REFUSED_REQUEST=$request REFUSED="$work/refused" "$program" "$@" </dev/null >out 2>err || status=$?
        [ -e refused ] || break
        left=$(ps -eo args | grep -c "^sleep $nap" || true)
        echo "status $status: $(sed 's/^slot [0-9]*/slot/' out | sort | tr '\n' '/') $left left" >>"$name.answers"
    done
    echo "$name: $((request - 1)) requests"
    sort "$name.answers" | uniq -c | sort -rn
}

try 'metis' metis one.theory g f1 f2
try 'a race of one slot' prove one.theory g --slices 1 --workers 1 --prover "$work/both"
try 'a race of three slots' prove one.theory g --slices 3 --workers 3 --timeout 500 --prover "$work/three"
