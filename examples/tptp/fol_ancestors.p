% status: Theorem
% uses: f_1 f_2 f_3 f_base f_step goal
fof(f_1, axiom, parent(a, b)).
fof(f_2, axiom, parent(b, c)).
fof(f_3, axiom, parent(c, d)).
fof(f_base, axiom, ! [X, Y] : (parent(X, Y) => ancestor(X, Y))).
fof(f_step, axiom, ! [X, Y, Z] : ((parent(X, Y) & ancestor(Y, Z)) => ancestor(X, Z))).
fof(goal, conjecture, ancestor(a, d)).
