% status: Theorem
% uses: f_1 goal
fof(f_1, axiom, ? [X] : p(X, sk_0)).
fof(goal, conjecture, ? [Y] : p(Y, sk_0)).
