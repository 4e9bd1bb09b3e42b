% status: Theorem
% uses: f_anti f_1 f_2 goal
fof(f_anti, axiom, ! [X, Y] : ((le(X, Y) & le(Y, X)) => X = Y)).
fof(f_1, axiom, ! [X] : le(bottom, X)).
fof(f_2, axiom, ! [X] : le(other, X)).
fof(goal, conjecture, bottom = other).
