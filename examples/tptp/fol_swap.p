% status: Theorem
% uses: f_ea goal
fof(f_ea, axiom, ? [X] : ! [Y] : r(X, Y)).
fof(goal, conjecture, ! [Y] : ? [X] : r(X, Y)).
