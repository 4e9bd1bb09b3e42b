% status: Theorem
% uses: f_1 f_2 goal
fof(f_1, axiom, ! [X, Y] : first(pair(X, Y)) = X).
fof(f_2, axiom, pair(a, b) = pair(c, d)).
fof(goal, conjecture, a = c).
