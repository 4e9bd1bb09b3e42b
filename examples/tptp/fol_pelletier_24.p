% status: Theorem
% uses: f_1 f_2 f_3 f_4 goal
fof(f_1, axiom, ~ ? [X] : (s(X) & q(X))).
fof(f_2, axiom, ! [X] : (p(X) => (q(X) | r(X)))).
fof(f_3, axiom, (~ ? [X] : p(X)) => ? [X] : q(X)).
fof(f_4, axiom, ! [X] : ((q(X) | r(X)) => s(X))).
fof(goal, conjecture, ? [X] : (p(X) & r(X))).
