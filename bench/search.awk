# Writes a problem with a goal that doesn't follow, in the form that `search_bench FILE` reads:
#     awk -v problem=group|order|ladder|lists|sets -v budget=N -f search.awk
# `group` has the axioms of groups and two elements that don't commute, `order` a transitive relation over a chain of 40 constants, `ladder` a relation
# over 100 constants that goes on step by step on both sides. The other two are of tagged terms: `lists` are sums, and lists that are put together and
# measured, `sets` intersections and unions by what is a member. There a term of a type stands under that type's symbol, and an application is a symbol
# with two arguments.
function variable(type, n) { return "f " type " 1 v " n " " }
function constant(type, symbol) { return "f " type " 1 f " symbol " 0 " }
function applied(type, a, b) { return "f " type " 1 f " APPLY " 2 " a b }
function equal(sign, s, t) { return sign " e " s t }
function holds(sign, t) { return sign " h " t }
function clause(n, literals) { printf "%d %s\n", n, literals }
function plain(n) { print "1 1 " budget " 5 " n }
function tagged(n) { print "1 0 " budget " 5 " n }

function x(n) { return "v " n " " }
function named(n) { return "f " 10 + n " 0 " }
function times(a, b) { return "f 0 2 " a b }
function before(sign, a, b) { return holds(sign, "f 3 2 " a b) }
function group() {
    plain(4)
    clause(1, equal(1, times("f 2 0 ", x(0)), x(0)))
    clause(1, equal(1, times("f 1 1 " x(0), x(0)), "f 2 0 "))
    clause(1, equal(1, times(times(x(0), x(1)), x(2)), times(x(0), times(x(1), x(2)))))
    clause(1, equal(0, times(named(0), named(1)), times(named(1), named(0))))
}
function order(size,   n) {
    plain(size + 2)
    clause(3, before(0, x(0), x(1)) before(0, x(1), x(2)) before(1, x(0), x(2)))
    for (n = 0; n < size; n++) clause(1, before(1, named(n), named(n + 1)))
    clause(1, before(0, named(size), named(0)))
}
function ladder(size,   n) {
    plain(2 * size + 1)
    for (n = 0; n < size; n++) {
        clause(2, before(0, x(0), named(n)) before(1, x(0), named(n + 1)))
        clause(2, before(0, named(n + 1), x(0)) before(1, named(n), x(0)))
    }
    clause(1, before(1, named(size / 2), named(size / 2)))
}

function add(a, b) { return applied(NAT, applied(TO, constant(TO + 1, 40), a), b) }
function suc(a) { return applied(NAT, constant(TO, 41), a) }
function size(a) { return applied(NAT, constant(TO + 2, 42), a) }
function cons(a, b) { return applied(LIST, applied(TO + 3, constant(TO + 4, 43), a), b) }
function append(a, b) { return applied(LIST, applied(TO + 3, constant(TO + 5, 44), a), b) }
function lists(   m, n, e, p, q, c, d, zero, nil) {
    m = variable(NAT, 0); n = variable(NAT, 1); zero = constant(NAT, 45)
    e = variable(NAT, 2); p = variable(LIST, 0); q = variable(LIST, 1)
    nil = constant(LIST, 46); c = constant(LIST, 47); d = constant(LIST, 48)
    tagged(7)
    clause(1, equal(1, add(m, zero), m))
    clause(1, equal(1, add(m, suc(n)), suc(add(m, n))))
    clause(1, equal(1, append(nil, q), q))
    clause(1, equal(1, append(cons(e, p), q), cons(e, append(p, q))))
    clause(1, equal(1, size(nil), zero))
    clause(1, equal(1, size(cons(e, p)), suc(size(p))))
    clause(1, equal(0, size(append(c, d)), add(size(d), size(c))))
}

function member(a, s) { return applied(BOOL, applied(TO + 6, constant(TO + 7, 50), a), s) }
function both(s, t) { return applied(SET, applied(TO + 8, constant(TO + 9, 51), s), t) }
function either(s, t) { return applied(SET, applied(TO + 8, constant(TO + 9, 52), s), t) }
function within(s, t) { return applied(BOOL, applied(TO + 6, constant(TO + 10, 53), s), t) }
function witness(s, t) { return applied(ITEM, applied(TO + 11, constant(TO + 12, 54), s), t) }
function sets(   e, s, t, a) {
    e = variable(ITEM, 2); s = variable(SET, 0); t = variable(SET, 1); a = constant(SET, 55)
    tagged(10)
    clause(2, holds(0, member(e, both(s, t))) holds(1, member(e, s)))
    clause(2, holds(0, member(e, both(s, t))) holds(1, member(e, t)))
    clause(3, holds(0, member(e, s)) holds(0, member(e, t)) holds(1, member(e, both(s, t))))
    clause(3, holds(0, member(e, either(s, t))) holds(1, member(e, s)) holds(1, member(e, t)))
    clause(2, holds(0, member(e, s)) holds(1, member(e, either(s, t))))
    clause(2, holds(0, member(e, t)) holds(1, member(e, either(s, t))))
    clause(3, holds(0, within(s, t)) holds(0, member(e, s)) holds(1, member(e, t)))
    clause(2, holds(1, within(s, t)) holds(1, member(witness(s, t), s)))
    clause(2, holds(1, within(s, t)) holds(0, member(witness(s, t), t)))
    clause(1, holds(0, within(either(a, constant(SET, 56)), both(a, constant(SET, 57)))))
}

BEGIN {
    APPLY = 0; BOOL = 1; NAT = 2; LIST = 3; SET = 4; ITEM = 5
    # and from here on the types of functions
    TO = 10
    if (problem == "group") group()
    else if (problem == "order") order(40)
    else if (problem == "ladder") ladder(100)
    else if (problem == "lists") lists()
    else sets()
}
