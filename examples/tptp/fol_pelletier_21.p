% status: Theorem
% uses: f_1 f_2 goal
fof(f_1, axiom, ? [X] : (p => f(X))).
fof(f_2, axiom, ? [X] : (f(X) => p)).
fof(goal, conjecture, ? [X] : (p <=> f(X))).
