% status: Theorem
% uses: goal
fof(goal, conjecture, ? [X] : ! [Y, Z] : ((p(Y) => q(Z)) => (p(X) => q(X)))).
