# The theories of growing size that metis.sh and lift.sh try. It is read by them, from a folder of their own:
#     . bench/goals.sh
# The families: nat (sums of numbers), chain (a chain of equations), group (a product of elements and its inverse, from the axioms), list (`map` over
# a list of constants), append (two lists put together), sets (intersections as lambdas), order (a chain of a transitive relation), least (in a partial
# order, a least element below a chain is the only one).

# each writes a theory with the goal `g`, and prints the facts to prove it from
nat() {
    awk -v n="$1" 'function s(k,  t, i) { t = "zero"; for (i = 0; i < k; i++) t = "(suc " t ")"; return t } BEGIN {
        print "type nat; const zero : nat; const suc : nat -> nat; const add : nat -> nat -> nat;"
        print "fact add_zero : !m:nat. add m zero = m;"
        print "fact add_suc : !m:nat. !n:nat. add m (suc n) = suc (add m n);"
        print "goal g : add " s(n) " " s(n) " = " s(2 * n) ";" }' >t.theory
    echo add_zero add_suc
}
chain() {
    awk -v n="$1" 'BEGIN {
        print "type nat;"
        for (i = 0; i <= n; i++) printf "const c%d : nat;\n", i
        for (i = 1; i <= n; i++) printf "fact e%d : c%d = c%d;\n", i, i - 1, i
        printf "goal g : c0 = c%d;\n", n }' >t.theory
    seq -f 'e%.0f' 1 "$1"
}
group() {
    awk -v n="$1" 'BEGIN {
        print "type g; const one : g; const mul : g -> g -> g; const inv : g -> g;"
        print "fact assoc : !x:g. !y:g. !z:g. mul (mul x y) z = mul x (mul y z);"
        print "fact left_one : !x:g. mul one x = x;"
        print "fact left_inverse : !x:g. mul (inv x) x = one;"
        p = "one"; q = "one"
        for (i = 1; i <= n; i++) { printf "const a%d : g;\n", i; p = "(mul " p " a" i ")"; q = "(mul (inv a" i ") " q ")" }
        print "goal g : mul " q " " p " = one;" }' >t.theory
    echo assoc left_one left_inverse
}
list() {
    awk -v n="$1" 'BEGIN {
        print "type a; type b; type as; type bs; const nil : as; const cons : a -> as -> as; const nil2 : bs; const cons2 : b -> bs -> bs;"
        print "const map : (a -> b) -> as -> bs; const f : a -> b;"
        print "fact map_nil : !h:a -> b. map h nil = nil2;"
        print "fact map_cons : !h:a -> b. !x:a. !xs:as. map h (cons x xs) = cons2 (h x) (map h xs);"
        p = "nil"; q = "nil2"
        for (i = n; i >= 1; i--) { printf "const x%d : a;\n", i; p = "(cons x" i " " p ")"; q = "(cons2 (f x" i ") " q ")" }
        print "goal g : map f " p " = " q ";" }' >t.theory
    echo map_nil map_cons
}
append() {
    awk -v n="$1" 'BEGIN {
        print "type a; type as; const nil : as; const cons : a -> as -> as; const append : as -> as -> as;"
        print "fact append_nil : !ys:as. append nil ys = ys;"
        print "fact append_cons : !x:a. !xs:as. !ys:as. append (cons x xs) ys = cons x (append xs ys);"
        p = "nil"; q = "nil"; r = "nil"
        for (i = 2 * n; i > n; i--) { printf "const x%d : a;\n", i; q = "(cons x" i " " q ")" }
        r = q
        for (i = n; i >= 1; i--) { printf "const x%d : a;\n", i; p = "(cons x" i " " p ")"; r = "(cons x" i " " r ")" }
        print "goal g : append " p " " q " = " r ";" }' >t.theory
    echo append_nil append_cons
}
sets() {
    awk -v n="$1" 'BEGIN {
        print "type a; const both : (a -> bool) -> (a -> bool) -> a -> bool; const member : a -> (a -> bool) -> bool;"
        print "fact both_is : !s:a -> bool. !t:a -> bool. both s t = (\\x:a. s x & t x);"
        print "fact member_is : !x:a. !s:a -> bool. member x s = s x;"
        print "const e : a;"
        p = "s0"; print "const s0 : a -> bool;"
        for (i = 1; i <= n; i++) { printf "const s%d : a -> bool;\n", i; p = "(both s" i " " p ")" }
        print "goal g : member e " p " ==> s0 e;" }' >t.theory
    echo both_is member_is
}
order() {
    awk -v n="$1" 'BEGIN {
        print "type nat; const le : nat -> nat -> bool;"
        print "fact trans : !x:nat. !y:nat. !z:nat. le x y ==> le y z ==> le x z;"
        for (i = 0; i <= n; i++) printf "const c%d : nat;\n", i
        for (i = 1; i <= n; i++) printf "fact e%d : le c%d c%d;\n", i, i - 1, i
        printf "goal g : le c0 c%d;\n", n }' >t.theory
    echo trans
    seq -f 'e%.0f' 1 "$1"
}
least() {
    awk -v n="$1" 'BEGIN {
        print "type p; const le : p -> p -> bool; const bot : p;"
        print "fact anti : !x:p. !y:p. le x y ==> le y x ==> x = y;"
        print "fact trans : !x:p. !y:p. !z:p. le x y ==> le y z ==> le x z;"
        print "fact bot_least : !x:p. le bot x;"
        for (i = 0; i <= n; i++) printf "const c%d : p;\n", i
        for (i = 1; i <= n; i++) printf "fact e%d : le c%d c%d;\n", i, i - 1, i
        printf "fact last : le c%d bot;\ngoal g : c0 = bot;\n", n }' >t.theory
    echo anti trans bot_least last
    seq -f 'e%.0f' 1 "$1"
}

# the sizes of a family
sizes() {
    case $1 in
        nat) echo 2 4 8 16 ;;
        group) echo 1 2 3 4 ;;
        sets) echo 1 2 4 8 ;;
        least) echo 1 2 3 4 ;;
        *) echo 4 8 16 32 ;;
    esac
}
