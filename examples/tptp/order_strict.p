% status: Theorem
% uses: f_trans f_irrefl goal
fof(f_trans, axiom, ! [X, Y, Z] : ((lt(X, Y) & lt(Y, Z)) => lt(X, Z))).
fof(f_irrefl, axiom, ! [X] : ~ lt(X, X)).
fof(goal, conjecture, ! [X, Y] : (lt(X, Y) => ~ lt(Y, X))).
