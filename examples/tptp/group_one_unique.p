% status: Theorem
% uses: f_left_one f_right_u goal
fof(f_left_one, axiom, ! [X] : m(e, X) = X).
fof(f_right_u, axiom, ! [X] : m(X, u) = X).
fof(goal, conjecture, e = u).
