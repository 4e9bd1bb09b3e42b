% status: Theorem
% uses: f_trans f_1 f_2 f_3 goal
fof(f_trans, axiom, ! [X, Y, Z] : ((le(X, Y) & le(Y, Z)) => le(X, Z))).
fof(f_1, axiom, le(a, b)).
fof(f_2, axiom, le(b, c)).
fof(f_3, axiom, le(c, d)).
fof(goal, conjecture, le(a, d)).
