% status: Theorem
% uses: f_1 goal
fof(f_1, axiom, ! [X] : 'Big one'(X)).
fof(goal, conjecture, 'Big one'('it\'s')).
