% status: Theorem
% uses: goal
fof(goal, conjecture, ? [Y] : ! [X] : (f(Y) => f(X))).
