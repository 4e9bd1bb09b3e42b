% status: Theorem
fof(f_assoc, axiom, ! [X, Y, Z] : m(m(X, Y), Z) = m(X, m(Y, Z))).
fof(f_left_one, axiom, ! [X] : m(e, X) = X).
fof(f_left_inv, axiom, ! [X] : m(i(X), X) = e).
fof(f_right_one, axiom, ! [X] : m(X, e) = X).
fof(f_right_inv, axiom, ! [X] : m(X, i(X)) = e).
fof(f_u, axiom, m(a, u) = e).
fof(goal, conjecture, u = i(a)).
