% status: Theorem
% uses: goal
fof(goal, conjecture, ~ ? [X] : ! [Y] : (f(Y, X) <=> ~ f(Y, Y))).
