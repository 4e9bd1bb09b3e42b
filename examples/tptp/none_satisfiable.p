% status: GaveUp
fof(f_1, axiom, ! [X] : (p(X) => p(f(X)))).
fof(f_0, axiom, p(a)).
fof(goal, conjecture, p(b)).
