% status: Theorem
% uses: f_total f_n goal
fof(f_total, axiom, ! [X, Y] : (le(X, Y) | le(Y, X))).
fof(f_n, axiom, ~ le(a, b)).
fof(goal, conjecture, le(b, a)).
