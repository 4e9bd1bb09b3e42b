% status: Theorem
% uses: f_anti f_ab f_ba goal
fof(f_anti, axiom, ! [X, Y] : ((le(X, Y) & le(Y, X)) => X = Y)).
fof(f_ab, axiom, le(a, b)).
fof(f_ba, axiom, le(b, a)).
fof(goal, conjecture, a = b).
