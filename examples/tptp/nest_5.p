% status: Theorem
% uses: f_1 goal
fof(f_1, axiom, ! [X0] : ? [X1] : ! [X2] : ? [X3] : ! [X4] : r(X0, X1, X2, X3, X4)).
fof(goal, conjecture, ! [X0] : ? [X1] : ! [X2] : ? [X3] : ! [X4] : r(X0, X1, X2, X3, X4)).
