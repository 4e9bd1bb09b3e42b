% status: Theorem
% uses: f_some f_every goal
fof(f_some, axiom, ? [X] : p(X)).
fof(f_every, axiom, ! [X] : (p(X) => q)).
fof(goal, conjecture, q).
