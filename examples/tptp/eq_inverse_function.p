% status: Theorem
% uses: f_gf goal
fof(f_gf, axiom, ! [X] : g(f(X)) = X).
fof(goal, conjecture, ! [X, Y] : (f(X) = f(Y) => X = Y)).
