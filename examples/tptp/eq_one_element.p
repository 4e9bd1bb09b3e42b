% status: Theorem
% uses: f_1 goal
fof(f_1, axiom, ! [X, Y] : X = Y).
fof(goal, conjecture, f(a) = g(b, c)).
