% status: Theorem
% uses: f_sym f_trans goal
fof(f_sym, axiom, ! [X, Y] : (e(X, Y) => e(Y, X))).
fof(f_trans, axiom, ! [X, Y, Z] : ((e(X, Y) & e(Y, Z)) => e(X, Z))).
fof(goal, conjecture, ! [X, Y] : (e(X, Y) => e(X, X))).
