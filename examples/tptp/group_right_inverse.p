% status: Theorem
% uses: f_assoc f_left_one f_left_inv goal
fof(f_assoc, axiom, ! [X, Y, Z] : m(m(X, Y), Z) = m(X, m(Y, Z))).
fof(f_left_one, axiom, ! [X] : m(e, X) = X).
fof(f_left_inv, axiom, ! [X] : m(i(X), X) = e).
fof(goal, conjecture, m(a, i(a)) = e).
