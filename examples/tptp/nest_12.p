% status: Theorem
% uses: f_1 goal
fof(f_1, axiom, ! [X0] : ? [X1] : ! [X2] : ? [X3] : ! [X4] : ? [X5] : ! [X6] : ? [X7] : ! [X8] : ? [X9] : ! [X10] : ? [X11] : r(X0, X1, X2, X3, X4, X5, X6, X7, X8, X9, X10, X11)).
fof(goal, conjecture, ! [X0] : ? [X1] : ! [X2] : ? [X3] : ! [X4] : ? [X5] : ! [X6] : ? [X7] : ! [X8] : ? [X9] : ! [X10] : ? [X11] : r(X0, X1, X2, X3, X4, X5, X6, X7, X8, X9, X10, X11)).
